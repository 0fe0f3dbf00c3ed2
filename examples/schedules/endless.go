// Two goroutines make one channel after another until main stops them.
// Each channel is a new object, so the number of states has no bound.
package main

import "fmt"

func fill(stop chan bool) {
	for {
		select {
		case <-stop:
			return
		default:
			c := make(chan int, 1)
			c <- 1
		}
	}
}

func main() {
	stop := make(chan bool)
	for n := 0; n < 2; n++ {
		go fill(stop)
	}
	close(stop)
	fmt.Println("stopped")
}
