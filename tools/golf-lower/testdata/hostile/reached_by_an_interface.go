package main

import (
	"os"
	"runtime/pprof"
	"time"
)

// A channel in an interface, in a closure or behind a method value is live with it.

type sender interface{ send(int) }

type one chan int

func (o one) send(n int) { o <- n }

var kept sender
var later func(int)
var loose any

func main() {
	a, b, c, d := make(one), make(one), make(one), make(one)
	kept, later, loose = a, b.send, struct{ s sender }{c}
	for _, o := range []one{a, b, c, d} {
		go o.send(1)
	}
	time.Sleep(time.Millisecond)
	loose = 3
	leaks()
}

// leaks writes Go's profile of leaked goroutines. By golf-go it is a collection.
func leaks() {
	time.Sleep(20 * time.Millisecond)
	pprof.Lookup("goroutineleak").WriteTo(os.Stdout, 2)
}
