// main takes the answer or the tick, whichever is first, and does not stop the timer.
// Nobody receives the tick after the answer, so the timer waits for ever.
package main

import "fmt"

func timer(rounds int, tick chan bool) {
	for n := 0; n < rounds; n++ {
	}
	tick <- true
}

func ask(answers chan int) {
	answers <- 42
}

func main() {
	tick := make(chan bool)
	answers := make(chan int, 1)
	go timer(2, tick)
	go ask(answers)
	select {
	case answer := <-answers:
		fmt.Println(answer)
	case <-tick:
		fmt.Println("too late")
	}
}
