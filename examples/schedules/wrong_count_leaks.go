// The group counts three workers, but main starts two. A goroutine waits for the group and then closes the channel.
// The count never reaches 0, so this goroutine waits for ever.
package main

import (
	"fmt"
	"sync"
)

func work(n int, results chan int, running *sync.WaitGroup) {
	results <- n
	running.Done()
}

func finish(results chan int, running *sync.WaitGroup) {
	running.Wait()
	close(results)
}

func main() {
	results := make(chan int, 2)
	running := &sync.WaitGroup{}
	running.Add(3)
	go finish(results, running)
	for n := 0; n < 2; n++ {
		go work(n, results, running)
	}
	fmt.Println("sum", <-results+<-results)
}
