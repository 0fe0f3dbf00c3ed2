// A goroutine waits for a result or for a signal to stop, and nobody holds either channel any more. Another one
// waits on a channel that main still closes: it is not reported.
//
//	stopped
//	collection 1: marked 2, reported 1, kept 1, reclaimed 0, objects 4
//	goroutine 3: select at line 15, started at line 26
package main

import (
	"fmt"
	"runtime"
)

func watch(result chan string, stop chan struct{}) {
	select {
	case text := <-result:
		fmt.Println(text)
	case <-stop:
		fmt.Println("stopped")
	}
}

func main() {
	stop := make(chan struct{})
	go watch(make(chan string), stop)
	go watch(make(chan string), make(chan struct{}))
	for i := 0; i < 50; i++ {
	}
	runtime.GC()
	close(stop)
	for i := 0; i < 50; i++ {
	}
}
