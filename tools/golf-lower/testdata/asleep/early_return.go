// A goroutine ends without unlocking.
package main

import "sync"

var mu sync.Mutex

func count(n int, done chan bool) {
	for i := 0; i < 3; i++ {
		mu.Lock()
		if i == n {
			done <- true
			return
		}
		mu.Unlock()
	}
	done <- true
}

func main() {
	done := make(chan bool)
	go count(5, done)
	<-done
	go count(2, done)
	<-done
	mu.Lock()
}
