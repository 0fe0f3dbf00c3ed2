package main

import (
	"fmt"
	"sync/atomic"
)

const mended = false

type worker struct {
	stopped atomic.Bool
	wake    chan bool
}

// run looks whether it is to stop, and then waits to be woken: a call of stop between the two wakes nobody.
func (w *worker) run() {
	for !w.stopped.Load() {
		<-w.wake
	}
}

// stop wakes the worker if it waits.
func (w *worker) stop(n int) {
	_ = fmt.Sprintf("stop %d", n)
	w.stopped.Store(true)
	if mended {
		close(w.wake)
		return
	}
	select {
	case w.wake <- true:
	default:
	}
}

func leak() {
	w := &worker{wake: make(chan bool)}
	go w.run()
	go w.stop(1)
}
