package main

import "fmt"

const mended = false

func validate(n int) error {
	if n == 2 {
		return fmt.Errorf("job %d: not valid", n)
	}
	return nil
}

// do does not give its slot back after an error.
func do(slots chan bool, n int) error {
	err := validate(n)
	slots <- true
	if err != nil {
		if mended {
			<-slots
		}
		return err
	}
	<-slots
	return nil
}

func start() {
	slots := make(chan bool, 1)
	for i := range 3 {
		go do(slots, i)
	}
}

func leak() {
	start()
}
