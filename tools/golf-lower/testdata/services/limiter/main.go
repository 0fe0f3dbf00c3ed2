// Command limiter shows who may do how much.
package main

import (
	"context"
	"fmt"
	"sync"
	"time"

	"example.com/limiter/bucket"
	"example.com/limiter/keyed"
)

type steps struct {
	sync.Mutex
	now time.Time
}

func (s *steps) Now() time.Time {
	s.Lock()
	defer s.Unlock()
	return s.now
}

func (s *steps) pass(d time.Duration) {
	s.Lock()
	s.now = s.now.Add(d)
	s.Unlock()
}

func main() {
	clock := &steps{now: time.Date(2026, time.December, 1, 12, 0, 0, 0, time.UTC)}
	l := keyed.New(clock, func() *bucket.Bucket { return bucket.New(0.5, 2, bucket.WithClock(clock)) })
	for i := range 8 {
		fmt.Println(clock.Now().Format(time.TimeOnly), "anna", l.Allow("anna"), "ben", i%3 == 0 && l.Allow("ben"))
		clock.pass(750 * time.Millisecond)
	}
	clock.pass(time.Minute)
	l.Allow("anna")
	fmt.Println("forgotten:", l.Forget(30*time.Second))

	b := bucket.New(1000, 5)
	var wg sync.WaitGroup
	errs := make(chan error, 20)
	for range 20 {
		wg.Add(1)
		go func() {
			defer wg.Done()
			errs <- b.Wait(context.Background(), 1)
		}()
	}
	wg.Wait()
	close(errs)
	n := 0
	for err := range errs {
		if err == nil {
			n++
		}
	}
	fmt.Println("waited:", n)
}
