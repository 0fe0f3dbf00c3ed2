// main asks two servers and returns with the first answer.
// The channel has room for both answers, so no server blocks.
package main

import "fmt"

func ask(server int, answers chan int) {
	cost := 0
	for n := 0; n < server; n++ {
		cost += n
	}
	answers <- cost
}

func first() int {
	answers := make(chan int, 2)
	go ask(1, answers)
	go ask(2, answers)
	return <-answers
}

func main() {
	fmt.Println("first", first())
}
