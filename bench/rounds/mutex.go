package main

import "sync"

func main() {
	m := &sync.Mutex{}
	x := 0
	for i := 0; i < 5000000; i++ {
		m.Lock()
		x = x + 1
		m.Unlock()
	}
}
