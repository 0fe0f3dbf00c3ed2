package main

import "fmt"

const mended = false

// load forgets to close results if it ends with an error: the collector stays.
func load(n int) error {
	results := make(chan int)
	errs := make(chan error, 1)
	done := make(chan bool, 1)
	go func() {
		sum := 0
		for r := range results {
			sum += r
		}
		_ = sum
	}()
	go func() {
		if n > 2 {
			errs <- fmt.Errorf("load %d: more than %d", n, 2)
		}
	}()
	go func() {
		for i := 0; i < 2; i++ {
			results <- i
		}
		done <- true
	}()
	select {
	case err := <-errs:
		if mended {
			<-done
			close(results)
		}
		return err
	case <-done:
		close(results)
		return nil
	}
}

func leak() {
	load(3)
	fmt.Println("loaded")
}
