package main

import (
	"fmt"
	"sync"
)

const mended = false

// gather closes the results once all workers are done. The reader ends at the first error: workers stay, and so does the
// goroutine that waits for them.
func gather(jobs int) error {
	results := make(chan error)
	stop := make(chan bool)
	var group sync.WaitGroup
	for i := range jobs {
		group.Add(1)
		go func() {
			defer group.Done()
			err := check(i)
			select {
			case results <- err:
			case <-stop:
			}
		}()
	}
	go func() {
		group.Wait()
		close(results)
	}()
	for err := range results {
		if err != nil {
			if mended {
				close(stop)
			}
			return err
		}
	}
	return nil
}

func check(job int) error {
	if job == 1 {
		return fmt.Errorf("job %d of %d", job, 3)
	}
	return nil
}

func leak() {
	fmt.Println(gather(3))
}
