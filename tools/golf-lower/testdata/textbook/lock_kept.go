package main

import (
	"fmt"
	"sync"
)

const mended = false

type account struct {
	mu      sync.Mutex
	balance int
	changes chan int
}

// add tells of each change while it holds the lock.
func (a *account) add(n int) {
	a.mu.Lock()
	defer a.mu.Unlock()
	a.balance += n
	a.changes <- n
}

// watch reads changes until it is told to stop.
func (a *account) watch(stop chan bool) {
	for {
		select {
		case <-a.changes:
		case <-stop:
			return
		}
	}
}

func leak() {
	a := &account{}
	a.changes = make(chan int)
	if mended {
		a.changes = make(chan int, 2)
	}
	stop := make(chan bool)
	go a.watch(stop)
	go a.add(1)
	go a.add(2)
	go func() {
		if reason := fmt.Sprintf("limit of %d", 10); len(reason) > 2 {
			close(stop)
		}
	}()
}
