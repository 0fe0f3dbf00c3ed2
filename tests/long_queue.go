package main

// Twenty goroutines send on a channel, and main receives: those that wait stand in a long queue.

func send(c chan int) {
	for {
		c <- 1
	}
}

func main() {
	c := make(chan int)
	for i := 0; i < 20; i++ {
		go send(c)
	}
	x := 0
	for {
		x = x + <-c
	}
}
