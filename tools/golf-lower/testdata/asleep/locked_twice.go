// A method that locks calls another one that locks.
package main

import "sync"

type store struct {
	mu   sync.Mutex
	size int
}

func (s *store) grow(n int) {
	s.mu.Lock()
	defer s.mu.Unlock()
	s.size += n
}

func (s *store) double() {
	s.mu.Lock()
	defer s.mu.Unlock()
	s.grow(s.size)
}

func main() {
	s := &store{}
	s.grow(1)
	s.double()
}
