package main

import (
	"os"
	"runtime/pprof"
	"sync"
	"time"
)

// A lock that a dead goroutine holds is never unlocked. Who waits for it is dead too.

type store struct {
	sync.Mutex
	n int
}

func (s *store) keep(c chan int) {
	s.Lock()
	defer s.Unlock()
	s.n += <-c
}

func main() {
	s := &store{}
	go s.keep(make(chan int))
	time.Sleep(time.Millisecond)
	for range 2 {
		go func() {
			s.Lock()
			s.n++
			s.Unlock()
		}()
	}
	leaks()
}

// leaks writes Go's profile of leaked goroutines. By golf-go it is a collection.
func leaks() {
	time.Sleep(20 * time.Millisecond)
	pprof.Lookup("goroutineleak").WriteTo(os.Stdout, 2)
}
