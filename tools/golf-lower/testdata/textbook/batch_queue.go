package main

import "fmt"

const mended = false

// consume ends at the first item that is wrong. Whoever adds items after that waits for room for ever.
func consume(queue chan int, ended chan bool) error {
	defer close(ended)
	for item := range queue {
		if item == 2 {
			return fmt.Errorf("item %d: no such %s", item, "account")
		}
	}
	return nil
}

func add(queue chan int, ended chan bool, item int) {
	if !mended {
		queue <- item
		return
	}
	select {
	case queue <- item:
	case <-ended:
	}
}

func leak() {
	queue, ended := make(chan int, 2), make(chan bool)
	for i := range 4 {
		go add(queue, ended, i)
	}
	fmt.Println(consume(queue, ended))
}
