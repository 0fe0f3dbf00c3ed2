// A writer waits for two readers.
package main

import "sync"

var table sync.RWMutex

func read(c, held chan int) {
	table.RLock()
	held <- 1
	<-c
	table.RUnlock()
}

func main() {
	c, held := make(chan int), make(chan int)
	go read(c, held)
	go read(c, held)
	<-held
	<-held
	table.Lock()
}
