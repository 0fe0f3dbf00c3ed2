// Command fetch asks a server that is often busy.
package main

import (
	"context"
	"errors"
	"fmt"
	"math/rand"
	"strconv"
	"time"

	"example.com/retry"
	"example.com/retry/backoff"
)

type statusError int

func (s statusError) Error() string { return "status " + strconv.Itoa(int(s)) }

func (s statusError) Temporary() bool { return s >= 500 }

func fetch(statuses []int) func(context.Context) (string, error) {
	return func(context.Context) (string, error) {
		s := statuses[0]
		statuses = statuses[1:]
		if s == 200 {
			return "page", nil
		}
		err := statusError(s)
		if t, ok := error(err).(interface{ Temporary() bool }); ok && t.Temporary() {
			return "", err
		}
		return "", retry.Permanent(err)
	}
}

func main() {
	random := rand.New(rand.NewSource(7))
	o := retry.Options{
		Tries:   4,
		Backoff: backoff.Policy{First: time.Millisecond, Factor: 3, Most: 5 * time.Millisecond, Jitter: 0.25, Random: random},
		OnRetry: func(n int, wait time.Duration, err error) { fmt.Printf("  %d: %v, wait %v\n", n, err, wait) },
	}
	for _, statuses := range [][]int{{200}, {503, 502, 200}, {500, 404}, {500, 501, 502, 503}} {
		page, err := retry.Do(context.Background(), o, fetch(statuses))
		var s statusError
		fmt.Printf("%v: %q, %v, %t %d\n", statuses, page, err, errors.As(err, &s), s)
	}
}
