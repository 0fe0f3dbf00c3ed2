// Package bucket is a token bucket: it allows some events a second, and bursts.
package bucket

import (
	"context"
	"errors"
	"fmt"
	"math"
	"sync"
	"time"
)

// Clock tells the time.
type Clock interface{ Now() time.Time }

type wall struct{}

func (wall) Now() time.Time { return time.Now() }

// ErrTooMany is the error of a request that no bucket of this size can ever allow.
var ErrTooMany = errors.New("more tokens than the bucket holds")

// Bucket has tokens that come back with time.
type Bucket struct {
	mu     sync.Mutex
	rate   float64 // tokens a second
	burst  float64
	tokens float64
	last   time.Time
	clock  Clock
}

// An Option changes a new bucket.
type Option func(*Bucket)

// WithClock takes the time from c.
func WithClock(c Clock) Option { return func(b *Bucket) { b.clock = c } }

// New returns a full bucket.
func New(rate float64, burst int, options ...Option) *Bucket {
	b := &Bucket{rate: rate, burst: float64(burst), tokens: float64(burst), clock: wall{}}
	for _, o := range options {
		o(b)
	}
	b.last = b.clock.Now()
	return b
}

// refill adds what has come since the last look; b.mu is held.
func (b *Bucket) refill() {
	now := b.clock.Now()
	if d := now.Sub(b.last); d > 0 {
		b.tokens = math.Min(b.burst, b.tokens+d.Seconds()*b.rate)
		b.last = now
	}
}

// Allow takes n tokens if they are there.
func (b *Bucket) Allow(n int) bool {
	b.mu.Lock()
	defer b.mu.Unlock()
	b.refill()
	if b.tokens < float64(n) {
		return false
	}
	b.tokens -= float64(n)
	return true
}

// reserve takes n tokens that may not be there yet, and says how long to wait for them.
func (b *Bucket) reserve(n int) time.Duration {
	b.mu.Lock()
	defer b.mu.Unlock()
	b.refill()
	b.tokens -= float64(n)
	if b.tokens >= 0 {
		return 0
	}
	return time.Duration(math.Ceil(-b.tokens / b.rate * float64(time.Second)))
}

func (b *Bucket) giveBack(n int) {
	b.mu.Lock()
	b.tokens = math.Min(b.burst, b.tokens+float64(n))
	b.mu.Unlock()
}

// Wait waits for n tokens.
func (b *Bucket) Wait(ctx context.Context, n int) error {
	if float64(n) > b.burst {
		return fmt.Errorf("%d of %g: %w", n, b.burst, ErrTooMany)
	}
	d := b.reserve(n)
	if d == 0 {
		return ctx.Err()
	}
	timer := time.NewTimer(d)
	defer timer.Stop()
	select {
	case <-timer.C:
		return nil
	case <-ctx.Done():
		b.giveBack(n)
		return ctx.Err()
	}
}
