// Package group runs functions that belong together: the first error cancels the others.
package group

import (
	"context"
	"fmt"
	"sync"
)

// Group is a set of goroutines. The zero value has no limit and cancels nothing.
type Group struct {
	cancel context.CancelCauseFunc
	wg     sync.WaitGroup
	once   sync.Once
	err    error
	slots  chan struct{}
}

// With returns a group, and a context that ends with the first error or when Wait returns.
func With(ctx context.Context) (*Group, context.Context) {
	ctx, cancel := context.WithCancelCause(ctx)
	return &Group{cancel: cancel}, ctx
}

// Limit lets at most n functions run at the same time. It is called before the first Go.
func (g *Group) Limit(n int) *Group {
	g.slots = make(chan struct{}, n)
	return g
}

// Go calls f in a goroutine, once there is room for it.
func (g *Group) Go(f func() error) {
	if g.slots != nil {
		g.slots <- struct{}{}
	}
	g.start(f)
}

// TryGo calls f in a goroutine if there is room for it now.
func (g *Group) TryGo(f func() error) bool {
	if g.slots != nil {
		select {
		case g.slots <- struct{}{}:
		default:
			return false
		}
	}
	g.start(f)
	return true
}

func (g *Group) start(f func() error) {
	g.wg.Add(1)
	go func() {
		defer g.wg.Done()
		defer func() {
			if g.slots != nil {
				<-g.slots
			}
		}()
		if err := protect(f); err != nil {
			g.fail(err)
		}
	}()
}

func protect(f func() error) (err error) {
	defer func() {
		switch v := recover().(type) {
		case nil:
		case error:
			err = fmt.Errorf("panic: %w", v)
		default:
			err = fmt.Errorf("panic: %v", v)
		}
	}()
	return f()
}

func (g *Group) fail(err error) {
	g.once.Do(func() {
		g.err = err
		if g.cancel != nil {
			g.cancel(err)
		}
	})
}

// Wait waits for all, and returns the first error.
func (g *Group) Wait() error {
	g.wg.Wait()
	if g.cancel != nil {
		g.cancel(g.err)
	}
	return g.err
}
