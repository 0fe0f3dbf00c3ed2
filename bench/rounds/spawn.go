package main

func work(c chan int) {
	c <- 1
}
func main() {
	c := make(chan int)
	s := 0
	for i := 0; i < 5000000; i++ {
		go work(c)
		s = s + <-c
	}
}
