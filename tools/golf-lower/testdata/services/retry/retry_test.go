package retry_test

import (
	"context"
	"errors"
	"fmt"
	"io"
	"testing"
	"time"

	"example.com/retry"
	"example.com/retry/backoff"
)

var fast = backoff.Policy{First: time.Microsecond, Factor: 2, Most: time.Millisecond}

// flaky fails some times.
func flaky(fails int, err error) func(context.Context) (int, error) {
	calls := 0
	return func(context.Context) (int, error) {
		if calls++; calls <= fails {
			return 0, fmt.Errorf("call %d: %w", calls, err)
		}
		return calls, nil
	}
}

type half struct{ values []float64 }

func (h *half) Float64() float64 {
	x := h.values[0]
	h.values = append(h.values[1:], x)
	return x
}

func TestWaits(t *testing.T) {
	p := backoff.Policy{First: 100 * time.Millisecond, Factor: 1.5, Most: time.Second, Jitter: 0.5, Random: &half{[]float64{0.5, 0, 1}},
		Round: func(d time.Duration) time.Duration { return d.Round(time.Millisecond) }}
	want := []time.Duration{100, 75, 338, 338, 253, 1000}
	for n, d := range p.All() {
		if n > len(want) {
			break
		}
		if d != want[n-1]*time.Millisecond {
			t.Errorf("wait %d is %v, want %dms", n, d, want[n-1])
		}
	}
}

func TestSuccessAfterSomeTries(t *testing.T) {
	var waits []time.Duration
	o := retry.Options{Tries: 5, Backoff: fast, OnRetry: func(_ int, d time.Duration, _ error) { waits = append(waits, d) }}
	n, err := retry.Do(t.Context(), o, flaky(3, io.EOF))
	if n != 4 || err != nil || fmt.Sprint(waits) != "[1µs 2µs 4µs]" {
		t.Errorf("%d, %v, %v", n, err, waits)
	}
}

func TestAllErrorsAreTold(t *testing.T) {
	_, err := retry.Do(t.Context(), retry.Options{Tries: 2, Backoff: fast}, flaky(9, io.ErrClosedPipe))
	if !errors.Is(err, io.ErrClosedPipe) || err.Error() != "2 tries: call 1: io: read/write on closed pipe; call 2: io: read/write on closed pipe" {
		t.Errorf("error %q", err)
	}
	var list retry.Errors
	if !errors.As(err, &list) || len(list) != 2 {
		t.Errorf("%d errors", len(list))
	}
}

func TestAPermanentErrorEndsIt(t *testing.T) {
	calls := 0
	_, err := retry.Do(t.Context(), retry.Options{Tries: 5, Backoff: fast}, func(context.Context) (struct{}, error) {
		calls++
		return struct{}{}, fmt.Errorf("auth: %w", retry.Permanent(io.ErrNoProgress))
	})
	if calls != 1 || err != io.ErrNoProgress {
		t.Errorf("%d calls, %v", calls, err)
	}
	if retry.Permanent(nil) != nil {
		t.Error("nil is an error")
	}
}

func TestTheDeadlineIsNotSleptThrough(t *testing.T) {
	ctx, cancel := context.WithTimeout(context.Background(), 50*time.Millisecond)
	defer cancel()
	slow := backoff.Policy{First: time.Minute, Factor: 1, Most: time.Hour}
	_, err := retry.Do(ctx, retry.Options{Tries: 3, Backoff: slow}, flaky(9, io.EOF))
	if !errors.Is(err, context.DeadlineExceeded) || !errors.Is(err, io.EOF) || ctx.Err() != nil {
		t.Errorf("error %v", err)
	}
}
