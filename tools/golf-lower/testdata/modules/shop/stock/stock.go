// Package stock keeps what is there.
package stock

import (
	"errors"
	"sync"
)

// ErrNone says that nothing is left.
var ErrNone = errors.New("stock: none left")

// Stock counts things by their names.
type Stock struct {
	mu    sync.Mutex
	count map[string]int
}

// Put adds things.
func (s *Stock) Put(name string, n int) {
	s.mu.Lock()
	defer s.mu.Unlock()
	if s.count == nil {
		s.count = map[string]int{}
	}
	s.count[name] += n
}

// Take takes one thing.
func (s *Stock) Take(name string) error {
	s.mu.Lock()
	defer s.mu.Unlock()
	if s.count[name] == 0 {
		return ErrNone
	}
	s.count[name]--
	return nil
}

func (s *Stock) left(name string) int {
	s.mu.Lock()
	defer s.mu.Unlock()
	return s.count[name]
}

// Machine is the machine for which the package is built.
func Machine() string { return machine }
