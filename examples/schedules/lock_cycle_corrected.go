// Two goroutines lock two mutexes in the same order.
// So the goroutine that holds the first mutex also gets the second one.
package main

import "sync"

var moved = 0

func move(first *sync.Mutex, second *sync.Mutex) {
	first.Lock()
	second.Lock()
	moved++
	second.Unlock()
	first.Unlock()
}

func announce(done chan bool) {
	done <- true
}

func main() {
	left := &sync.Mutex{}
	right := &sync.Mutex{}
	done := make(chan bool)
	go move(left, right)
	go announce(done)
	go move(left, right)
	<-done
}
