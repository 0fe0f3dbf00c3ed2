package main

import (
	"fmt"
	"sync"
)

const mended = false

type conn struct {
	mu      sync.Mutex
	closing bool
	done    chan bool
}

// Close is guarded against a second call, which waits for the first. After an error the first one forgets done.
func (c *conn) Close(err error) error {
	c.mu.Lock()
	if c.closing {
		c.mu.Unlock()
		<-c.done
		return nil
	}
	c.closing = true
	c.mu.Unlock()
	if err != nil && !mended {
		return err
	}
	close(c.done)
	return err
}

func serve(id int) {
	c := &conn{done: make(chan bool)}
	go func() { c.Close(fmt.Errorf("connection %d: reset by %s", id, "peer")) }()
	go func() { c.Close(nil) }()
}

func leak() {
	serve(4)
}
