package main

import (
	"os"
	"runtime/pprof"
	"sync"
	"time"
)

// Nobody signals a condition that only its waiters reach.

type queue struct {
	mu    sync.Mutex
	cond  *sync.Cond
	items []int
}

func newQueue() *queue {
	q := &queue{}
	q.cond = sync.NewCond(&q.mu)
	return q
}

func (q *queue) take() int {
	q.mu.Lock()
	defer q.mu.Unlock()
	for len(q.items) == 0 {
		q.cond.Wait()
	}
	n := q.items[0]
	q.items = q.items[1:]
	return n
}

var shared = newQueue()

func main() {
	q := newQueue()
	for range 3 {
		go q.take()
	}
	go shared.take()
	time.Sleep(time.Millisecond)
	q.mu.Lock()
	q.items = append(q.items, 1)
	q.cond.Signal()
	q.mu.Unlock()
	leaks()
}

// leaks writes Go's profile of leaked goroutines. By golf-go it is a collection.
func leaks() {
	time.Sleep(20 * time.Millisecond)
	pprof.Lookup("goroutineleak").WriteTo(os.Stdout, 2)
}
