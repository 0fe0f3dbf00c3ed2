// Two goroutines lock two mutexes in opposite orders. If each holds one mutex, both wait for ever.
// This needs one preemption between the two locks; in rotation it does not happen.
package main

import "sync"

var moved = 0

func move(from *sync.Mutex, to *sync.Mutex) {
	from.Lock()
	to.Lock()
	moved++
	to.Unlock()
	from.Unlock()
}

func announce(done chan bool) {
	done <- true
}

func main() {
	left := &sync.Mutex{}
	right := &sync.Mutex{}
	done := make(chan bool)
	go move(left, right)
	go announce(done)
	go move(right, left)
	<-done
}
