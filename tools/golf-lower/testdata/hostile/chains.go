package main

import (
	"os"
	"runtime/pprof"
	"time"
)

// A goroutine that only a dead one could wake is dead, over any number of steps, and a ring of them too.

func pass(from <-chan int, to chan<- int) {
	for n := range from {
		to <- n
	}
	close(to)
}

func main() {
	first := make(chan int)
	c := first
	for range 4 {
		next := make(chan int)
		go pass(c, next)
		c = next
	}
	ring := make(chan int)
	back := make(chan int)
	go pass(ring, back)
	go pass(back, ring)
	live := make(chan int)
	go pass(live, make(chan int, 1))
	go func() {
		time.Sleep(time.Hour)
		close(live)
	}()
	leaks()
}

// leaks writes Go's profile of leaked goroutines. By golf-go it is a collection.
func leaks() {
	time.Sleep(20 * time.Millisecond)
	pprof.Lookup("goroutineleak").WriteTo(os.Stdout, 2)
}
