package main

func feed(a chan int) {
	for {
		a <- 1
	}
}
func main() {
	a := make(chan int)
	b := make(chan int)
	go feed(a)
	go feed(b)
	s := 0
	for i := 0; i < 5000000; i++ {
		select {
		case v := <-a:
			s = s + v
		case v := <-b:
			s = s + v
		}
	}
}
