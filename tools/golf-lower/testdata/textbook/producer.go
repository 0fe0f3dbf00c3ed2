package main

import "fmt"

const mended = false

func numbers(stop chan bool) chan int {
	out := make(chan int)
	go func() {
		for i := 0; i < 3; i++ {
			if mended {
				select {
				case out <- i:
				case <-stop:
					return
				}
				continue
			}
			out <- i
		}
		close(out)
	}()
	return out
}

// sum ends when it is told to; the producer does not know.
func sum(stop chan bool) int {
	n := 0
	c := numbers(stop)
	for {
		select {
		case i, ok := <-c:
			if !ok {
				return n
			}
			n += i
		case <-stop:
			return n
		}
	}
}

func leak() {
	stop := make(chan bool)
	go func() {
		reason := fmt.Sprintf("limit of %d reached by %s", 10, "user")
		if len(reason) > 3 {
			close(stop)
		}
	}()
	fmt.Println(sum(stop) <= 3)
}
