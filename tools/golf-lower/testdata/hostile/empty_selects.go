package main

import (
	"fmt"
	"os"
	"runtime/pprof"
	"time"
)

// An empty select waits for ever, also behind a panic that was recovered.

func forever(n int) {
	defer func() {
		fmt.Println(n, recover())
		select {}
	}()
	fmt.Println(6 / n)
}

func main() {
	go func() { select {} }()
	go forever(0)
	time.Sleep(time.Millisecond)
	go forever(2)
	leaks()
}

// leaks writes Go's profile of leaked goroutines. By golf-go it is a collection.
func leaks() {
	time.Sleep(20 * time.Millisecond)
	pprof.Lookup("goroutineleak").WriteTo(os.Stdout, 2)
}
