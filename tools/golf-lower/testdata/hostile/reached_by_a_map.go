package main

import (
	"os"
	"runtime/pprof"
	"time"
)

// A channel in a map of a live goroutine is live, up to its deletion.

var byName = map[string]chan int{}

func main() {
	for _, name := range []string{"a", "b", "c"} {
		byName[name] = make(chan int)
		go func() { <-byName[name] }()
	}
	time.Sleep(time.Millisecond)
	delete(byName, "b")
	byName["c"] = nil
	leaks()
}

// leaks writes Go's profile of leaked goroutines. By golf-go it is a collection.
func leaks() {
	time.Sleep(20 * time.Millisecond)
	pprof.Lookup("goroutineleak").WriteTo(os.Stdout, 2)
}
