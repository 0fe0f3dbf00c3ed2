// A pipeline of three stages whose last reader takes one value and leaves. Each stage before it waits to hand
// on a value that nobody takes.
//
//	first 2
//	collection 1: marked 0, reported 2, kept 2, reclaimed 0, objects 2
//	goroutine 2: chan send at line 17, started at line 30
//	goroutine 3: chan send at line 23, started at line 31
package main

import (
	"fmt"
	"runtime"
)

func numbers(out chan<- int) {
	for n := 1; ; n++ {
		out <- n
	}
}

func doubled(in <-chan int, out chan<- int) {
	for n := range in {
		out <- 2 * n
	}
}

func first() int {
	raw := make(chan int)
	twice := make(chan int)
	go numbers(raw)
	go doubled(raw, twice)
	return <-twice
}

func main() {
	fmt.Println("first", first())
	for i := 0; i < 50; i++ {
	}
	runtime.GC()
}
