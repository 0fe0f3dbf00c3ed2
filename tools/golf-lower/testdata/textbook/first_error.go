package main

import "fmt"

const mended = false

// run returns the first error of its steps; nobody receives from the others.
func run(steps []func() error) error {
	room := 0
	if mended {
		room = len(steps)
	}
	errs := make(chan error, room)
	for _, s := range steps {
		go func() { errs <- s() }()
	}
	for range steps {
		if err := <-errs; err != nil {
			return err
		}
	}
	return nil
}

func step(n int) func() error {
	return func() error {
		if n == 2 {
			return fmt.Errorf("step %d of %s failed", n, "four")
		}
		return nil
	}
}

func leak() {
	fmt.Println(run([]func() error{step(0), step(1), step(2), step(3)}))
}
