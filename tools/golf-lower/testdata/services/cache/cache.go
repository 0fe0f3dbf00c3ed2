// Package cache keeps loaded values for some time. A value that several ask for at the same time is loaded once.
package cache

import (
	"context"
	"sync"
	"time"

	"example.com/cache/lru"
)

// Loader finds the value of a key.
type Loader[K comparable, V any] func(ctx context.Context, key K) (V, error)

type item[V any] struct {
	value   V
	expires time.Time
}

// call is a load that has begun.
type call[V any] struct {
	done  chan struct{}
	value V
	err   error
}

// Cache is for several goroutines.
type Cache[K comparable, V any] struct {
	load Loader[K, V]
	ttl  time.Duration

	mu    sync.Mutex
	items lru.List[K, item[V]]
	calls map[K]*call[V]
	stats Stats

	stop chan struct{}
	idle sync.WaitGroup
}

// Stats counts what a cache has done.
type Stats struct{ Hits, Loads, Shared, Expired int }

// New starts a cache, which looks for expired values in intervals.
func New[K comparable, V any](size int, ttl, interval time.Duration, load Loader[K, V]) *Cache[K, V] {
	c := &Cache[K, V]{load: load, ttl: ttl, calls: map[K]*call[V]{}, stop: make(chan struct{})}
	c.items.Size = size
	c.idle.Add(1)
	go c.sweep(interval)
	return c
}

func (c *Cache[K, V]) sweep(interval time.Duration) {
	defer c.idle.Done()
	ticker := time.NewTicker(interval)
	defer ticker.Stop()
	for {
		select {
		case <-c.stop:
			return
		case now := <-ticker.C:
			c.expire(now)
		}
	}
}

func (c *Cache[K, V]) expire(now time.Time) {
	c.mu.Lock()
	defer c.mu.Unlock()
	var gone []K
	for key, it := range c.items.All() {
		if it.expires.Before(now) {
			gone = append(gone, key)
		}
	}
	for _, key := range gone {
		c.items.Delete(key)
		c.stats.Expired++
	}
}

// Get returns a value, which it loads if it is not there.
func (c *Cache[K, V]) Get(ctx context.Context, key K) (V, error) {
	c.mu.Lock()
	if it, ok := c.items.Get(key); ok && time.Now().Before(it.expires) {
		c.stats.Hits++
		c.mu.Unlock()
		return it.value, nil
	}
	if l, ok := c.calls[key]; ok {
		c.stats.Shared++
		c.mu.Unlock()
		select {
		case <-l.done:
			return l.value, l.err
		case <-ctx.Done():
			var zero V
			return zero, ctx.Err()
		}
	}
	l := &call[V]{done: make(chan struct{})}
	c.calls[key] = l
	c.stats.Loads++
	c.mu.Unlock()

	l.value, l.err = c.load(ctx, key)
	c.mu.Lock()
	delete(c.calls, key)
	if l.err == nil {
		c.items.Put(key, item[V]{l.value, time.Now().Add(c.ttl)})
	}
	c.mu.Unlock()
	close(l.done)
	return l.value, l.err
}

// Stats returns the counts of now.
func (c *Cache[K, V]) Stats() Stats {
	c.mu.Lock()
	defer c.mu.Unlock()
	return c.stats
}

// Close ends the search for expired values.
func (c *Cache[K, V]) Close() {
	close(c.stop)
	c.idle.Wait()
}
