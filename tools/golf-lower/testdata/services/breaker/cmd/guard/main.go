// Command guard calls a service that is down for some time.
package main

import (
	"errors"
	"fmt"
	"sync"
	"time"

	"example.com/breaker"
)

func main() {
	start := time.Date(2026, 12, 1, 9, 30, 0, 0, time.UTC)
	var mu sync.Mutex
	now := start
	b := breaker.New(breaker.Settings{
		Name: "stock", Window: 16 * time.Second, Least: 3, Rate: 0.6, Cooldown: 5 * time.Second, Trials: 1,
		Now:      func() time.Time { mu.Lock(); defer mu.Unlock(); return now },
		OnChange: func(name string, from, to breaker.State) { fmt.Printf("  %s: %v -> %v\n", name, from, to) },
	})
	for i := range 15 {
		v, err := breaker.Call(b, func() (int, error) {
			if i >= 4 && i < 10 {
				return 0, fmt.Errorf("call %d: no route", i)
			}
			return i * i, nil
		})
		at := now.Sub(start)
		switch {
		case errors.Is(err, breaker.ErrOpen):
			fmt.Println(at, "kept away")
		case err != nil:
			fmt.Println(at, err)
		default:
			fmt.Println(at, v)
		}
		mu.Lock()
		now = now.Add(1500 * time.Millisecond)
		mu.Unlock()
	}
}
