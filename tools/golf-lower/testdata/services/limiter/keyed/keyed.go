// Package keyed has a bucket for each key, and forgets those that nobody uses.
package keyed

import (
	"sync"
	"time"

	"example.com/limiter/bucket"
)

type entry struct {
	bucket *bucket.Bucket
	used   time.Time
}

// Limiter limits each key for itself.
type Limiter struct {
	mu      sync.Mutex
	make    func() *bucket.Bucket
	clock   bucket.Clock
	entries map[string]*entry
}

// New returns a limiter whose buckets are made by f.
func New(clock bucket.Clock, f func() *bucket.Bucket) *Limiter {
	return &Limiter{make: f, clock: clock, entries: make(map[string]*entry)}
}

// Allow takes a token of a key.
func (l *Limiter) Allow(key string) bool {
	l.mu.Lock()
	e, ok := l.entries[key]
	if !ok {
		e = &entry{bucket: l.make()}
		l.entries[key] = e
	}
	e.used = l.clock.Now()
	l.mu.Unlock()
	return e.bucket.Allow(1)
}

// Forget drops the keys that have not been used for some time, and counts them.
func (l *Limiter) Forget(after time.Duration) (dropped int) {
	l.mu.Lock()
	defer l.mu.Unlock()
	now := l.clock.Now()
	for key, e := range l.entries {
		if now.Sub(e.used) > after {
			delete(l.entries, key)
			dropped++
		}
	}
	return dropped
}
