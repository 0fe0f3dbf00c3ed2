// Package breaker keeps calls away from a service that fails.
package breaker

import (
	"context"
	"errors"
	"fmt"
	"sync"
	"time"

	"example.com/breaker/window"
)

// State is how a breaker is.
type State uint8

// The states.
const (
	Closed State = iota
	Open
	HalfOpen
)

var names = map[State]string{Closed: "closed", Open: "open", HalfOpen: "half-open"}

func (s State) String() string {
	if n, ok := names[s]; ok {
		return n
	}
	return fmt.Sprintf("State(%d)", uint8(s))
}

// ErrOpen is the error of a call that is kept away.
var ErrOpen = errors.New("breaker: open")

// Settings say when a breaker changes its state.
type Settings struct {
	Name     string
	Window   time.Duration
	Least    int     // calls in the window before it can open
	Rate     float64 // it opens from this part of failures on
	Cooldown time.Duration
	Trials   int // calls that must succeed before it closes
	OnChange func(name string, from, to State)
	Now      func() time.Time
	Counts   func(err error) bool // whether an error is a failure of the service
}

// Breaker is for several goroutines.
type Breaker struct {
	s Settings

	mu      sync.Mutex
	state   State
	window  *window.Window
	until   time.Time
	trials  int
	running int
}

// New returns a closed breaker.
func New(s Settings) *Breaker {
	if s.Now == nil {
		s.Now = time.Now
	}
	if s.Counts == nil {
		s.Counts = func(err error) bool { return err != nil && !errors.Is(err, context.Canceled) }
	}
	return &Breaker{s: s, window: window.New(s.Window)}
}

// set changes the state; b.mu is held.
func (b *Breaker) set(to State) {
	from := b.state
	b.state, b.trials, b.running = to, 0, 0
	if to == Open {
		b.until = b.s.Now().Add(b.s.Cooldown)
	}
	b.window.Reset()
	if b.s.OnChange != nil {
		b.s.OnChange(b.s.Name, from, to)
	}
}

// State returns the state of now.
func (b *Breaker) State() State {
	b.mu.Lock()
	defer b.mu.Unlock()
	return b.state
}

func (b *Breaker) before() error {
	b.mu.Lock()
	defer b.mu.Unlock()
	if b.state == Open {
		if b.s.Now().Before(b.until) {
			return fmt.Errorf("%s: %w", b.s.Name, ErrOpen)
		}
		b.set(HalfOpen)
	}
	if b.state == HalfOpen && b.running+b.trials >= b.s.Trials {
		return fmt.Errorf("%s: %w", b.s.Name, ErrOpen)
	}
	b.running++
	return nil
}

func (b *Breaker) after(ok bool) {
	b.mu.Lock()
	defer b.mu.Unlock()
	b.running--
	now := b.s.Now()
	b.window.Add(now, ok)
	switch {
	case b.state == HalfOpen && !ok:
		b.set(Open)
	case b.state == HalfOpen:
		if b.trials++; b.trials == b.s.Trials {
			b.set(Closed)
		}
	case b.state == Closed:
		if sum := b.window.Sum(now); sum.Total() >= b.s.Least && sum.Rate() >= b.s.Rate {
			b.set(Open)
		}
	}
}

// Call calls f unless the breaker is open. A panic is a failure.
func Call[T any](b *Breaker, f func() (T, error)) (v T, err error) {
	if err := b.before(); err != nil {
		return v, err
	}
	ok := false
	defer func() { b.after(ok) }()
	v, err = f()
	ok = !b.s.Counts(err)
	return v, err
}
