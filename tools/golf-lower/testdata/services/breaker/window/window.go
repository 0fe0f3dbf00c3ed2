// Package window counts what has happened in the last time.
package window

import "time"

// Counts are those of one part of the window, or of all of it.
type Counts struct {
	Successes, Failures int
}

// Total is the number of events.
func (c Counts) Total() int { return c.Successes + c.Failures }

// Rate is the part of failures, 0 if nothing has happened.
func (c Counts) Rate() float64 {
	if c.Total() == 0 {
		return 0
	}
	return float64(c.Failures) / float64(c.Total())
}

const parts = 8

// Window is a ring of parts. It is not for several goroutines.
type Window struct {
	width time.Duration // of a part
	ring  [parts]Counts
	first int64 // the number of the part that ring[first%parts] counts
}

// New returns a window of some length.
func New(length time.Duration) *Window { return &Window{width: length / parts} }

func (w *Window) advance(now time.Time) *Counts {
	n := now.UnixNano() / int64(w.width)
	if n-w.first >= 2*parts {
		w.ring = [parts]Counts{}
		w.first = n - parts + 1
	}
	for n >= w.first+parts {
		w.ring[w.first%parts] = Counts{}
		w.first++
	}
	return &w.ring[n%parts]
}

// Add counts an event.
func (w *Window) Add(now time.Time, ok bool) {
	c := w.advance(now)
	if ok {
		c.Successes++
	} else {
		c.Failures++
	}
}

// Sum adds up the parts.
func (w *Window) Sum(now time.Time) (sum Counts) {
	w.advance(now)
	for _, c := range w.ring {
		sum.Successes += c.Successes
		sum.Failures += c.Failures
	}
	return sum
}

// Reset forgets all.
func (w *Window) Reset() { *w = Window{width: w.width} }
