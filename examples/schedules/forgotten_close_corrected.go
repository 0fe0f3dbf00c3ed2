// A reader receives until the channel is closed. main waits for the two writers and then closes the channel.
// So the reader ends.
package main

import (
	"fmt"
	"sync"
)

func write(n int, numbers chan int, written *sync.WaitGroup) {
	numbers <- n
	written.Done()
}

func read(numbers chan int) {
	sum := 0
	for n := range numbers {
		sum += n
	}
	fmt.Println("sum", sum)
}

func main() {
	numbers := make(chan int)
	written := &sync.WaitGroup{}
	written.Add(2)
	go read(numbers)
	go write(1, numbers, written)
	go write(2, numbers, written)
	written.Wait()
	close(numbers)
}
