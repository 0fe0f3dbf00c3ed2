// Package leaky leaves goroutines.
package leaky

import "fmt"

// Ask gives up if there is nothing to ask.
func Ask(name string) string {
	answer := make(chan string)
	go func() {
		answer <- "hello " + name
	}()
	if name == "" {
		return ""
	}
	return <-answer
}

// First returns the first error of some steps.
func First(steps int) error {
	errs := make(chan error)
	for i := range steps {
		go func() { errs <- step(i) }()
	}
	for range steps {
		if err := <-errs; err != nil {
			return err
		}
	}
	return nil
}

func step(i int) error {
	if i == 1 {
		return fmt.Errorf("step %d of %d", i, 3)
	}
	return nil
}
