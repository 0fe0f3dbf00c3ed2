package raced

import "testing"

func forgotten() { <-make(chan int) }

// Both add to n. One addition is lost if the other goroutine does all of its work between reading and writing, which no run
// shows that gives each goroutine its turns.
func TestLosesAnAddition(t *testing.T) {
	n := 0
	ended := make(chan bool, 1)
	go func() {
		sum := 0
		for i := range 100 {
			sum += i
		}
		n++
		ended <- sum > 0
	}()
	n++
	<-ended
	if n == 1 {
		go forgotten()
	}
}
