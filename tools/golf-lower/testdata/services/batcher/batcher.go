// Package batcher collects items, and hands them on in batches: when one is full, or after some time.
package batcher

import (
	"context"
	"errors"
	"sync"
	"time"
)

// ErrClosed is the error of an item that comes after Close.
var ErrClosed = errors.New("batcher: closed")

// Flush hands on a batch.
type Flush[T any] func(ctx context.Context, batch []T) error

type item[T any] struct {
	value T
	done  chan<- error
}

// Batcher has a goroutine that collects.
type Batcher[T any] struct {
	flush Flush[T]
	size  int
	delay time.Duration

	in     chan item[T]
	ended  chan struct{}
	mu     sync.RWMutex
	closed bool
	ctx    context.Context
	cancel context.CancelFunc
}

// New starts a batcher for batches of some size.
func New[T any](size int, delay time.Duration, flush Flush[T]) *Batcher[T] {
	b := &Batcher[T]{flush: flush, size: size, delay: delay, in: make(chan item[T]), ended: make(chan struct{})}
	b.ctx, b.cancel = context.WithCancel(context.Background())
	go b.collect()
	return b
}

func (b *Batcher[T]) collect() {
	defer close(b.ended)
	var batch []item[T]
	var timeout <-chan time.Time
	send := func() {
		if len(batch) > 0 {
			b.send(batch)
		}
		batch, timeout = nil, nil
	}
	defer send()
	for {
		select {
		case it, ok := <-b.in:
			if !ok {
				return
			}
			batch = append(batch, it)
			if len(batch) == 1 {
				timeout = time.After(b.delay)
			}
			if len(batch) == b.size {
				send()
			}
		case <-timeout:
			send()
		}
	}
}

// send hands on a batch, and tells each item the error.
func (b *Batcher[T]) send(batch []item[T]) {
	values := make([]T, len(batch))
	for i := range batch {
		values[i] = batch[i].value
	}
	err := b.flush(b.ctx, values)
	for _, it := range batch {
		it.done <- err
	}
}

// Add waits until the item's batch has been handed on.
func (b *Batcher[T]) Add(ctx context.Context, v T) error {
	b.mu.RLock()
	if b.closed {
		b.mu.RUnlock()
		return ErrClosed
	}
	done := make(chan error, 1)
	select {
	case b.in <- item[T]{v, done}:
		b.mu.RUnlock()
	case <-ctx.Done():
		b.mu.RUnlock()
		return ctx.Err()
	}
	select {
	case err := <-done:
		return err
	case <-ctx.Done():
		return ctx.Err()
	}
}

// Close hands on what is there, and waits for it.
func (b *Batcher[T]) Close() {
	b.mu.Lock()
	if !b.closed {
		b.closed = true
		close(b.in)
	}
	b.mu.Unlock()
	<-b.ended
	b.cancel()
}
