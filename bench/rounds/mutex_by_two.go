package main

import "sync"

func work(m *sync.Mutex, n int, done chan int) {
	for i := 0; i < n; i++ {
		m.Lock()
		m.Unlock()
	}
	done <- 1
}
func main() {
	n := 5000000 / 2
	m := &sync.Mutex{}
	done := make(chan int)
	go work(m, n, done)
	go work(m, n, done)
	<-done
	<-done
}
