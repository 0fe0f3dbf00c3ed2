package main

func take(a chan int, n int, done chan int) {
	s := 0
	for i := 0; i < n; i++ {
		s = s + <-a
	}
	done <- s
}
func main() {
	n := 5000000
	a := make(chan int, 64)
	done := make(chan int)
	go take(a, n, done)
	for i := 0; i < n; i++ {
		a <- i
	}
	<-done
}
