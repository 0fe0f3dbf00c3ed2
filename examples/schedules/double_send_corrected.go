// A worker that fails returns after its first answer, so each worker sends one answer.
// main takes two answers, so no send waits for ever.
package main

import "fmt"

func work(job int, answers chan int) {
	if job%2 == 0 {
		answers <- -1
		return
	}
	answers <- job
}

func main() {
	answers := make(chan int)
	for job := 0; job < 2; job++ {
		go work(job, answers)
	}
	for n := 0; n < 2; n++ {
		fmt.Println(<-answers)
	}
}
