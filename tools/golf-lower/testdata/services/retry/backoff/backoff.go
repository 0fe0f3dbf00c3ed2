// Package backoff says how long to wait before the next try.
package backoff

import (
	"iter"
	"math"
	"time"
)

// Policy grows exponentially up to Most, and spreads the waits by Jitter.
type Policy struct {
	First  time.Duration
	Factor float64
	Most   time.Duration
	Jitter float64                           // 0.5: from a half to one and a half
	Random interface{ Float64() float64 }    // for the jitter
	Round  func(time.Duration) time.Duration // nil: no rounding
}

// Wait is the time before try n, which counts from 1.
func (p Policy) Wait(n int) time.Duration {
	d := float64(p.First) * math.Pow(p.Factor, float64(n-1))
	if p.Jitter > 0 && p.Random != nil {
		d *= 1 + p.Jitter*(2*p.Random.Float64()-1)
	}
	w := time.Duration(min(d, float64(p.Most)))
	if p.Round != nil {
		w = p.Round(w)
	}
	return w
}

// All goes over the waits for ever.
func (p Policy) All() iter.Seq2[int, time.Duration] {
	return func(yield func(int, time.Duration) bool) {
		for n := 1; yield(n, p.Wait(n)); n++ {
		}
	}
}
