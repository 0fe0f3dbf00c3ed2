// Two goroutines wait for the lock that the other one holds.
package main

import "sync"

type account struct {
	mu      sync.Mutex
	balance int
}

func transfer(from, to *account, both *sync.WaitGroup, done chan bool) {
	from.mu.Lock()
	both.Done()
	both.Wait()
	to.mu.Lock()
	from.balance--
	to.balance++
	to.mu.Unlock()
	from.mu.Unlock()
	done <- true
}

func main() {
	a, b := &account{}, &account{}
	var both sync.WaitGroup
	both.Add(2)
	done := make(chan bool)
	go transfer(a, b, &both, done)
	go transfer(b, a, &both, done)
	<-done
	<-done
}
