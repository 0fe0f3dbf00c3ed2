// A writer waits for a reader that waits, and a reader waits behind the writer.
package main

import "sync"

var table sync.RWMutex

func read(c, held chan int) {
	table.RLock()
	held <- 1
	<-c
	table.RUnlock()
}

func write(begin chan int) {
	begin <- 1
	table.Lock()
	table.Unlock()
}

func main() {
	c, held := make(chan int), make(chan int)
	go read(c, held)
	<-held
	write2 := make(chan int)
	go write(write2)
	<-write2
	<-held
}
