// Each goroutine waits on a channel in a way of its own.
package main

func receive(c chan int) {
	<-c
}

func pick(a, b chan int, done chan bool) {
	done <- true
	select {
	case <-a:
	case b <- 1:
	}
}

func never(done chan bool) {
	done <- true
	select {}
}

func main() {
	done := make(chan bool)
	go receive(nil)
	go pick(make(chan int), make(chan int), done)
	go never(done)
	<-done
	<-done
	full := make(chan int, 1)
	full <- 1
	full <- 2
}
