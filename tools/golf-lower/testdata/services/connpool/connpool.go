// Package connpool keeps connections for later, and lets those wait who come when all are in use.
package connpool

import (
	"context"
	"errors"
	"sync"
	"time"

	"example.com/connpool/wire"
)

// ErrClosed is the error of a closed pool.
var ErrClosed = errors.New("connpool: closed")

// Config says how many connections there are.
type Config struct {
	Dial    func() (*wire.Conn, error)
	MaxOpen int
	MaxIdle int
	MaxAge  time.Duration // 0: connections do not age
}

type idle struct {
	conn *wire.Conn
	born time.Time
}

type grant struct {
	conn *wire.Conn
	err  error
}

// Pool is for several goroutines.
type Pool struct {
	cfg Config

	mu      sync.Mutex
	open    int
	free    []idle
	born    map[*wire.Conn]time.Time
	waiting []chan grant
	closed  bool
}

// New returns a pool without connections.
func New(cfg Config) *Pool { return &Pool{cfg: cfg, born: make(map[*wire.Conn]time.Time)} }

// Get returns a connection that was kept, opens one, or waits.
func (p *Pool) Get(ctx context.Context) (*wire.Conn, error) {
	p.mu.Lock()
	if p.closed {
		p.mu.Unlock()
		return nil, ErrClosed
	}
	for n := len(p.free) - 1; n >= 0; n-- {
		c := p.free[n]
		p.free = p.free[:n]
		if p.cfg.MaxAge == 0 || time.Since(c.born) <= p.cfg.MaxAge {
			p.mu.Unlock()
			return c.conn, nil
		}
		p.forget(c.conn)
	}
	if p.open < p.cfg.MaxOpen {
		p.open++
		p.mu.Unlock()
		return p.dial()
	}
	wait := make(chan grant, 1)
	p.waiting = append(p.waiting, wait)
	p.mu.Unlock()
	select {
	case g := <-wait:
		return g.conn, g.err
	case <-ctx.Done():
		p.giveUp(wait)
		return nil, ctx.Err()
	}
}

// dial opens a connection that has been counted.
func (p *Pool) dial() (*wire.Conn, error) {
	c, err := p.cfg.Dial()
	p.mu.Lock()
	defer p.mu.Unlock()
	if err != nil {
		p.open--
		p.wakeToDial()
		return nil, err
	}
	p.born[c] = time.Now()
	return c, nil
}

// wakeToDial lets the first who waits open a connection; p.mu is held.
func (p *Pool) wakeToDial() {
	if len(p.waiting) == 0 || p.open == p.cfg.MaxOpen {
		return
	}
	wait := p.waiting[0]
	p.waiting = p.waiting[1:]
	p.open++
	go func() {
		c, err := p.dial()
		wait <- grant{c, err}
	}()
}

// giveUp takes somebody out of those who wait. A connection that has come meanwhile goes to the next.
func (p *Pool) giveUp(wait chan grant) {
	p.mu.Lock()
	for i, w := range p.waiting {
		if w == wait {
			p.waiting = append(p.waiting[:i:i], p.waiting[i+1:]...)
			p.mu.Unlock()
			return
		}
	}
	p.mu.Unlock()
	if g := <-wait; g.conn != nil {
		p.Put(g.conn, nil)
	}
}

// Put gives a connection back. One that failed is closed.
func (p *Pool) Put(c *wire.Conn, err error) {
	p.mu.Lock()
	defer p.mu.Unlock()
	switch {
	case err != nil || p.closed:
		p.forget(c)
		p.wakeToDial()
	case len(p.waiting) > 0:
		p.waiting[0] <- grant{conn: c}
		p.waiting = p.waiting[1:]
	case len(p.free) < p.cfg.MaxIdle:
		p.free = append(p.free, idle{c, p.born[c]})
	default:
		p.forget(c)
	}
}

// forget closes a connection; p.mu is held.
func (p *Pool) forget(c *wire.Conn) {
	delete(p.born, c)
	p.open--
	c.Close()
}

// Close closes the connections that nobody uses; the others are closed when they come back.
func (p *Pool) Close() {
	p.mu.Lock()
	defer p.mu.Unlock()
	p.closed = true
	for _, c := range p.free {
		p.forget(c.conn)
	}
	p.free = nil
	for _, w := range p.waiting {
		w <- grant{err: ErrClosed}
	}
	p.waiting = nil
}
