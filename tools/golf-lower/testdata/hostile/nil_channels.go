package main

import (
	"os"
	"runtime/pprof"
	"time"
)

// Nobody can use a nil channel, also one that a variable had before.

type line struct{ c chan int }

func main() {
	var l line
	go func() { l.c <- 1 }()
	go func() { <-l.c }()
	go func() {
		for range l.c {
		}
	}()
	go func() {
		select {
		case <-l.c:
		case l.c <- 2:
		}
	}()
	time.Sleep(time.Millisecond)
	l.c = make(chan int, 1)
	l.c <- 1
	leaks()
}

// leaks writes Go's profile of leaked goroutines. By golf-go it is a collection.
func leaks() {
	time.Sleep(20 * time.Millisecond)
	pprof.Lookup("goroutineleak").WriteTo(os.Stdout, 2)
}
