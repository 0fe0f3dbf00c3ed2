package main

import (
	"fmt"
	"sync"
)

const mended = false

type gate struct {
	mu    sync.Mutex
	cond  *sync.Cond
	open  bool
	title string
}

func (g *gate) isOpen() bool {
	g.mu.Lock()
	defer g.mu.Unlock()
	return g.open
}

// wait looks and then waits: it misses a wake-up that comes between.
func (g *gate) wait() {
	if mended {
		g.mu.Lock()
		for !g.open {
			g.cond.Wait()
		}
		g.mu.Unlock()
		return
	}
	if !g.isOpen() {
		g.mu.Lock()
		g.cond.Wait()
		g.mu.Unlock()
	}
}

func (g *gate) set(n int) {
	t := fmt.Sprintf("opened by %d", n)
	g.mu.Lock()
	g.title = t
	g.open = true
	g.mu.Unlock()
	g.cond.Broadcast()
}

func start() {
	g := &gate{}
	g.cond = sync.NewCond(&g.mu)
	go g.set(1)
	go g.wait()
}

func leak() {
	start()
}
