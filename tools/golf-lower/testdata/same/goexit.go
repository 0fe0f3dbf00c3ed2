package main

import (
	"fmt"
	"runtime"
	"sync"
)

func work(n int, wg *sync.WaitGroup, out chan<- string) {
	defer wg.Done()
	defer func() { out <- fmt.Sprint("end ", n, recover()) }()
	if n == 1 {
		leave()
	}
	if n == 2 {
		panic("two")
	}
	out <- fmt.Sprint("work ", n)
}

func leave() {
	defer func() {
		if recover() != nil {
			panic("recover sees Goexit")
		}
	}()
	runtime.Goexit()
	panic("not reached")
}

func main() {
	out := make(chan string, 10)
	for n := range 4 {
		var wg sync.WaitGroup
		wg.Add(1)
		go work(n, &wg, out)
		wg.Wait()
	}
	close(out)
	for s := range out {
		fmt.Println(s)
	}
	done := make(chan bool)
	go func() {
		defer close(done)
		defer func() { fmt.Println("recovered", recover()) }()
		defer func() { panic("in a deferred call of Goexit") }()
		runtime.Goexit()
	}()
	<-done
	fmt.Println("main goes on")
}
