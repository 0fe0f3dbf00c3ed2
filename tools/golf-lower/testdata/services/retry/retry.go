// Package retry calls a function until it succeeds.
package retry

import (
	"context"
	"errors"
	"fmt"
	"strings"
	"time"

	"example.com/retry/backoff"
)

// permanent is an error that no further try can cure.
type permanent struct{ error }

func (p permanent) Unwrap() error { return p.error }

// Permanent marks an error after which there is no further try.
func Permanent(err error) error {
	if err == nil {
		return nil
	}
	return permanent{err}
}

// Errors are those of all tries.
type Errors []error

func (e Errors) Error() string {
	var sb strings.Builder
	fmt.Fprintf(&sb, "%d tries:", len(e))
	for i, err := range e {
		if i > 0 {
			sb.WriteByte(';')
		}
		fmt.Fprintf(&sb, " %v", err)
	}
	return sb.String()
}

// Unwrap returns the errors.
func (e Errors) Unwrap() []error { return e }

// Options change how often and how fast tries come.
type Options struct {
	Tries   int
	Backoff backoff.Policy
	OnRetry func(n int, wait time.Duration, err error)
}

// Do calls f until it succeeds, and returns its value.
func Do[T any](ctx context.Context, o Options, f func(context.Context) (T, error)) (value T, err error) {
	var errs Errors
	for n, wait := range o.Backoff.All() {
		value, err = f(ctx)
		if err == nil {
			return value, nil
		}
		var p permanent
		if errors.As(err, &p) {
			return value, p.error
		}
		errs = append(errs, err)
		if n == o.Tries {
			break
		}
		if o.OnRetry != nil {
			o.OnRetry(n, wait, err)
		}
		if err := sleep(ctx, wait); err != nil {
			return value, errors.Join(errs, err)
		}
	}
	return value, errs
}

func sleep(ctx context.Context, d time.Duration) error {
	if deadline, ok := ctx.Deadline(); ok && time.Until(deadline) < d {
		return context.DeadlineExceeded
	}
	select {
	case <-time.After(d):
		return nil
	case <-ctx.Done():
		return ctx.Err()
	}
}
