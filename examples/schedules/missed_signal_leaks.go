// A reader waits for a broadcast and does not look whether the writer is done.
// If the writer was first, the reader waits for ever.
package main

import "sync"

var written = false

func read(ready *sync.Cond) {
	ready.L.Lock()
	ready.Wait()
	ready.L.Unlock()
}

func write(ready *sync.Cond) {
	ready.L.Lock()
	written = true
	ready.Broadcast()
	ready.L.Unlock()
}

func main() {
	ready := sync.NewCond(&sync.Mutex{})
	for n := 0; n < 2; n++ {
		go read(ready)
	}
	write(ready)
}
