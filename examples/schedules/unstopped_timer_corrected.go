// main takes the answer or the tick, whichever is first, and then stops the timer.
// The timer sends its tick or sees the stop, so it ends.
package main

import "fmt"

func timer(rounds int, tick chan bool, stop chan bool) {
	for n := 0; n < rounds; n++ {
	}
	select {
	case tick <- true:
	case <-stop:
	}
}

func ask(answers chan int) {
	answers <- 42
}

func main() {
	tick := make(chan bool)
	stop := make(chan bool)
	answers := make(chan int, 1)
	go timer(2, tick, stop)
	go ask(answers)
	select {
	case answer := <-answers:
		fmt.Println(answer)
	case <-tick:
		fmt.Println("too late")
	}
	close(stop)
}
