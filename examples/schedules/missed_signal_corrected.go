// A reader looks under the mutex whether the writer is done, and waits only if it is not.
// So no reader misses the broadcast.
package main

import "sync"

var written = false

func read(ready *sync.Cond) {
	ready.L.Lock()
	for !written {
		ready.Wait()
	}
	ready.L.Unlock()
}

func write(ready *sync.Cond) {
	ready.L.Lock()
	written = true
	ready.Broadcast()
	ready.L.Unlock()
}

func main() {
	ready := sync.NewCond(&sync.Mutex{})
	for n := 0; n < 2; n++ {
		go read(ready)
	}
	write(ready)
}
