// Package scheduler calls functions at their times, in one goroutine.
package scheduler

import (
	"errors"
	"sync"
	"time"

	"example.com/scheduler/queue"
)

// ErrStopped is the error of a scheduler that has been stopped.
var ErrStopped = errors.New("scheduler: stopped")

type job struct {
	name  string
	run   func(now time.Time)
	every time.Duration
	left  int // how often it still runs, -1: for ever
}

// Entry is a function that waits for its time.
type Entry struct {
	s    *Scheduler
	item *queue.Item[*job]
}

// Cancel takes the function back. It says whether it was waiting.
func (e *Entry) Cancel() bool {
	e.s.mu.Lock()
	defer e.s.mu.Unlock()
	return e.s.queue.Remove(e.item)
}

// Scheduler has a queue and a goroutine.
type Scheduler struct {
	mu      sync.Mutex
	queue   queue.Queue[*job]
	wake    chan struct{}
	stop    chan struct{}
	done    chan struct{}
	once    sync.Once
	stopped bool
}

// Start returns a scheduler that runs.
func Start() *Scheduler {
	s := &Scheduler{wake: make(chan struct{}, 1), stop: make(chan struct{}), done: make(chan struct{})}
	go s.loop()
	return s
}

// After calls f once.
func (s *Scheduler) After(d time.Duration, name string, f func(time.Time)) (*Entry, error) {
	return s.add(d, &job{name: name, run: f, left: 1})
}

// Every calls f some times, at first after d.
func (s *Scheduler) Every(d time.Duration, times int, name string, f func(time.Time)) (*Entry, error) {
	return s.add(d, &job{name: name, run: f, every: d, left: times})
}

func (s *Scheduler) add(d time.Duration, j *job) (*Entry, error) {
	s.mu.Lock()
	defer s.mu.Unlock()
	if s.stopped {
		return nil, ErrStopped
	}
	e := &Entry{s, s.queue.Add(time.Now().Add(d), j)}
	select {
	case s.wake <- struct{}{}:
	default:
	}
	return e, nil
}

func (s *Scheduler) loop() {
	defer close(s.done)
	timer := time.NewTimer(time.Hour)
	defer timer.Stop()
	for {
		timer.Reset(s.step(time.Now()))
		select {
		case <-s.stop:
			return
		case <-s.wake:
		case <-timer.C:
		}
	}
}

// step runs what is due, and says how long to wait.
func (s *Scheduler) step(now time.Time) time.Duration {
	s.mu.Lock()
	due := s.queue.Due(now)
	for _, it := range due {
		j := it.Value
		if j.left--; j.left > 0 {
			s.queue.Add(it.At.Add(j.every), j)
		}
	}
	wait := time.Hour
	if next := s.queue.Next(); next != nil {
		wait = max(next.At.Sub(now), 0)
	}
	s.mu.Unlock()
	for _, it := range due {
		it.Value.run(now)
	}
	return wait
}

// Stop ends the goroutine and waits for it.
func (s *Scheduler) Stop() {
	s.once.Do(func() {
		s.mu.Lock()
		s.stopped = true
		s.mu.Unlock()
		close(s.stop)
	})
	<-s.done
}
