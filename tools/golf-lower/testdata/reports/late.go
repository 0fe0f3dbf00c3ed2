package main

import "fmt"

func wait(c chan int) {
	<-c
}

func main() {
	n := 0
	for i := 0; i < 600; i++ {
		n += i
	}
	fmt.Println(n)
	go wait(make(chan int))
	for i := 0; i < 20; i++ {
		n--
	}
}
