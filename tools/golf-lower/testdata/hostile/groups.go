package main

import (
	"os"
	"runtime/pprof"
	"sync"
	"time"
)

// A group with a count too high is waited for, for ever, unless somebody live can still change it.

var global sync.WaitGroup

func main() {
	var wg sync.WaitGroup
	wg.Add(2)
	go wg.Done()
	go wg.Wait()
	go func() {
		wg.Wait()
	}()
	global.Add(1)
	go global.Wait()
	leaks()
}

// leaks writes Go's profile of leaked goroutines. By golf-go it is a collection.
func leaks() {
	time.Sleep(20 * time.Millisecond)
	pprof.Lookup("goroutineleak").WriteTo(os.Stdout, 2)
}
