// Package pool runs jobs on a fixed number of workers.
package pool

import (
	"context"
	"errors"
	"fmt"
	"sync"
	"sync/atomic"
)

// ErrClosed is the error of a job that comes after Close.
var ErrClosed = errors.New("pool: closed")

// PanicError is the error of a job that panics.
type PanicError struct {
	Job   int
	Value any
}

func (e *PanicError) Error() string { return fmt.Sprintf("job %d: panic: %v", e.Job, e.Value) }

// Job computes one value.
type Job[T any] func(ctx context.Context) (T, error)

// Result is what became of a job.
type Result[T any] struct {
	Number int
	Value  T
	Err    error
}

type task[T any] struct {
	number int
	ctx    context.Context
	job    Job[T]
	done   chan<- Result[T]
}

// Stats counts jobs.
type Stats struct {
	Done, Failed int64
}

// Pool has workers that wait for jobs.
type Pool[T any] struct {
	tasks   chan task[T]
	workers sync.WaitGroup

	mu     sync.RWMutex
	closed bool
	next   int

	done, failed atomic.Int64
}

// New starts a pool with some workers.
func New[T any](workers int) *Pool[T] {
	p := &Pool[T]{tasks: make(chan task[T])}
	for range workers {
		p.workers.Add(1)
		go p.work()
	}
	return p
}

func (p *Pool[T]) work() {
	defer p.workers.Done()
	for t := range p.tasks {
		r := p.run(t)
		if r.Err != nil {
			p.failed.Add(1)
		}
		p.done.Add(1)
		t.done <- r
	}
}

func (p *Pool[T]) run(t task[T]) (r Result[T]) {
	r.Number = t.number
	defer func() {
		if v := recover(); v != nil {
			r.Err = &PanicError{Job: t.number, Value: v}
		}
	}()
	if err := t.ctx.Err(); err != nil {
		r.Err = fmt.Errorf("job %d: %w", t.number, err)
		return r
	}
	r.Value, r.Err = t.job(t.ctx)
	return r
}

// Submit hands a job to a worker. The channel gets its result.
func (p *Pool[T]) Submit(ctx context.Context, job Job[T]) (<-chan Result[T], error) {
	p.mu.RLock()
	defer p.mu.RUnlock()
	if p.closed {
		return nil, ErrClosed
	}
	done := make(chan Result[T], 1)
	t := task[T]{number: p.next, ctx: ctx, job: job, done: done}
	p.next++
	select {
	case p.tasks <- t:
		return done, nil
	case <-ctx.Done():
		return nil, ctx.Err()
	}
}

// All submits jobs and waits for their results, in the order of the jobs.
func (p *Pool[T]) All(ctx context.Context, jobs ...Job[T]) ([]T, error) {
	var pending []<-chan Result[T]
	for _, j := range jobs {
		c, err := p.Submit(ctx, j)
		if err != nil {
			return nil, err
		}
		pending = append(pending, c)
	}
	values := make([]T, 0, len(jobs))
	var errs []error
	for _, c := range pending {
		r := <-c
		if r.Err != nil {
			errs = append(errs, r.Err)
			continue
		}
		values = append(values, r.Value)
	}
	return values, errors.Join(errs...)
}

// Stats counts what has been done so far.
func (p *Pool[T]) Stats() Stats { return Stats{Done: p.done.Load(), Failed: p.failed.Load()} }

// Close waits for the jobs that have begun.
func (p *Pool[T]) Close() {
	p.mu.Lock()
	if !p.closed {
		p.closed = true
		close(p.tasks)
	}
	p.mu.Unlock()
	p.workers.Wait()
}
