package main

import (
	"fmt"
	"sync"
)

type counter struct {
	mu sync.Mutex
	n  int
}

func (c *counter) add() {
	c.mu.Lock()
	defer c.mu.Unlock()
	c.n++
}

type group struct {
	wg   sync.WaitGroup
	list [2]counter
}

func main() {
	var g group
	for range 2 {
		g.wg.Add(1)
		go func() {
			defer g.wg.Done()
			g.list[1].add()
		}()
		g.wg.Wait()
	}
	fmt.Println(g.list[0].n, g.list[1].n)
	g.list[1].mu.Lock()
	g.list[1] = counter{n: 7}
	g.list[1].add()
	fmt.Println(g.list[1].n)
	g = group{}
	g.list[1].add()
	p := &g.list[0]
	*p = counter{n: 3}
	p.add()
	p.mu.Lock()
	p.mu = sync.Mutex{}
	p.add()
	fmt.Println(g.list[0].n, g.list[1].n)
}
