// The group counts the two workers that main starts. A goroutine waits for the group and then closes the channel.
// The count reaches 0, so this goroutine ends.
package main

import (
	"fmt"
	"sync"
)

func work(n int, results chan int, running *sync.WaitGroup) {
	results <- n
	running.Done()
}

func finish(results chan int, running *sync.WaitGroup) {
	running.Wait()
	close(results)
}

func main() {
	results := make(chan int, 2)
	running := &sync.WaitGroup{}
	running.Add(2)
	go finish(results, running)
	for n := 0; n < 2; n++ {
		go work(n, results, running)
	}
	fmt.Println("sum", <-results+<-results)
}
