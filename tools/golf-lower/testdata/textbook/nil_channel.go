package main

import "fmt"

const mended = false

// merge puts nil in place of a channel that has ended; after an error it waits on two of them.
func merge(values chan int, errs chan error) {
	sum := 0
	for open := 2; open > 0; {
		select {
		case v, ok := <-values:
			if !ok {
				values = nil
				open--
			}
			sum += v
		case err := <-errs:
			errs = nil
			open--
			if err != nil && !mended {
				values = nil
			}
		}
	}
}

func start() {
	values := make(chan int, 2)
	errs := make(chan error, 1)
	go merge(values, errs)
	go func() {
		values <- 1
		values <- 2
		close(values)
	}()
	go func() { errs <- fmt.Errorf("value %d: %s", 3, "end of file") }()
}

func leak() {
	start()
}
