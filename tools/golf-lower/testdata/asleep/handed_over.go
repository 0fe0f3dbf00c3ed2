// A goroutine that has waited for the lock gets it, and keeps it.
package main

import "sync"

var mu, other sync.Mutex

func keep(gone chan bool) {
	other.Lock()
	gone <- true
	mu.Lock()
	other.Unlock()
	<-gone
	<-gone
}

func main() {
	gone := make(chan bool)
	mu.Lock()
	go keep(gone)
	<-gone
	mu.Unlock()
	other.Lock()
	other.Unlock()
	gone <- true
	mu.Lock()
}
