package main

func pong(a, b chan int) {
	for n := range a {
		b <- n + 1
	}
}
func main() {
	a := make(chan int)
	b := make(chan int)
	go pong(a, b)
	n := 0
	for i := 0; i < 5000000; i++ {
		a <- n
		n = <-b
	}
}
