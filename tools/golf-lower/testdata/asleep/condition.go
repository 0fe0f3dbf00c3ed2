// Nobody signals the condition, and nobody is done.
package main

import (
	"fmt"
	"sync"
	"time"
)

type queue struct {
	mu    sync.Mutex
	ready *sync.Cond
	items []int
}

func (q *queue) take() int {
	q.mu.Lock()
	defer q.mu.Unlock()
	for len(q.items) == 0 {
		q.ready.Wait()
	}
	return q.items[0]
}

func main() {
	q := &queue{}
	q.ready = sync.NewCond(&q.mu)
	var group sync.WaitGroup
	group.Add(1)
	go func() {
		defer group.Done()
		fmt.Println(q.take())
	}()
	time.Sleep(time.Millisecond)
	group.Wait()
}
