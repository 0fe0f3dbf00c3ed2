// A worker that fails does not return after its first answer, and sends a second one.
// main takes two answers, so one of the three sends waits for ever.
package main

import "fmt"

func work(job int, answers chan int) {
	if job%2 == 0 {
		answers <- -1
	}
	answers <- job
}

func main() {
	answers := make(chan int)
	for job := 0; job < 2; job++ {
		go work(job, answers)
	}
	for n := 0; n < 2; n++ {
		fmt.Println(<-answers)
	}
}
