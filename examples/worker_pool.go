// Workers take jobs from a channel that nobody closes. Once the pool is no longer used, each of them waits for
// one more job for ever.
//
//	sum 385
//	collection 1: marked 0, reported 2, kept 2, reclaimed 0, objects 2
//	goroutine 2: chan receive at line 17, started at line 28
//	goroutine 3: chan receive at line 17, started at line 28
package main

import (
	"fmt"
	"runtime"
)

// squares sends the square of each job.
func squares(jobs chan int, results chan int) {
	for n := range jobs {
		results <- n * n
	}
}

// sum adds up the squares from 1 to count. It forgets to close jobs.
func sum(count int) int {
	jobs := make(chan int)
	results := make(chan int)

	for w := 0; w < 2; w++ {
		go squares(jobs, results)
	}

	s := 0
	for n := 1; n <= count; n++ {
		jobs <- n
		s += <-results
	}
	return s
}

func main() {
	fmt.Println("sum", sum(10))
	for i := 0; i < 50; i++ {
	}
	runtime.GC()
}
