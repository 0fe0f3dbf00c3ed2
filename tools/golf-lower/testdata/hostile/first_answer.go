package main

import (
	"fmt"
	"os"
	"runtime/pprof"
	"time"
)

// Of those that answer, the first is heard. A buffer of one lets one more end.

func ask(c chan<- string, name string, after time.Duration) {
	time.Sleep(after)
	c <- fmt.Sprintf("%s after %v", name, after)
}

func first(room int) string {
	c := make(chan string, room)
	for i, name := range []string{"a", "b", "c"} {
		go ask(c, name, time.Duration(i+1)*time.Millisecond)
	}
	return <-c
}

func main() {
	for room := range 3 {
		fmt.Println(len(first(room)))
	}
	leaks()
}

// leaks writes Go's profile of leaked goroutines. By golf-go it is a collection.
func leaks() {
	time.Sleep(20 * time.Millisecond)
	pprof.Lookup("goroutineleak").WriteTo(os.Stdout, 2)
}
