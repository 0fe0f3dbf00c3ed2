// A consumer waits until an item is there, and the producer adds one without a signal.
//
//	collection 1: marked 0, reported 1, kept 1, reclaimed 0, objects 3
//	goroutine 2: sync.Cond.Wait at line 26, started at line 40
package main

import (
	"runtime"
	"sync"
)

type queue struct {
	mu    *sync.Mutex
	ready *sync.Cond
	items int
}

func newQueue() *queue {
	mu := &sync.Mutex{}
	return &queue{mu: mu, ready: sync.NewCond(mu)}
}

func (q *queue) take() {
	q.mu.Lock()
	for q.items == 0 {
		q.ready.Wait()
	}
	q.items--
	q.mu.Unlock()
}

func (q *queue) put() {
	q.mu.Lock()
	q.items++
	q.mu.Unlock()
}

func main() {
	q := newQueue()
	go q.take()
	for i := 0; i < 50; i++ {
	}
	q.put()
	q = nil
	runtime.GC()
}
