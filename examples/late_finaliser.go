// A goroutine that waits for ever holds an object that gets a finaliser later. With --recover it is kept all the same:
// if it were taken back, the finaliser would be called, and without --recover it is not.
//
//	end
//	collection 1: marked 1, reported 1, kept 1, reclaimed 0, objects 2
//	goroutine 2: chan receive at line 28, started at line 33
//	collection 2: marked 0, reported 0, kept 1, reclaimed 0, objects 2
package main

import (
	"fmt"
	"runtime"
)

type resource struct {
	n int
}

var keep = &resource{n: 5}

// done is the finaliser of a resource.
func done(r *resource) {
	fmt.Println("done", r.n)
}

// hold waits for ever, since nobody else knows its channel.
func hold(r *resource, c chan int) {
	<-c
	fmt.Println(r.n)
}

func main() {
	go hold(keep, make(chan int))
	for i := 0; i < 50; i++ {
	}
	runtime.GC()
	runtime.SetFinalizer(keep, done)
	keep = nil
	runtime.GC()
	for i := 0; i < 50; i++ {
	}
	fmt.Println("end")
}
