package bucket

import (
	"context"
	"errors"
	"testing"
	"time"
)

type fake struct{ now time.Time }

func (f *fake) Now() time.Time { return f.now }

func TestTokensComeBackWithTime(t *testing.T) {
	clock := &fake{time.Unix(1000, 0)}
	b := New(2, 3, WithClock(clock))
	for _, step := range []struct {
		pass time.Duration
		n    int
		want bool
	}{
		{0, 3, true}, {0, 1, false}, {400 * time.Millisecond, 1, false}, {100 * time.Millisecond, 1, true},
		{time.Hour, 4, false}, {0, 3, true}, {-time.Second, 1, false},
	} {
		clock.now = clock.now.Add(step.pass)
		if got := b.Allow(step.n); got != step.want {
			t.Errorf("after %v, %d tokens: %v, want %v", step.pass, step.n, got, step.want)
		}
	}
}

func TestWaitTakesAsLongAsTheTokens(t *testing.T) {
	b := New(100, 1)
	start := time.Now()
	for range 4 {
		if err := b.Wait(context.Background(), 1); err != nil {
			t.Fatal(err)
		}
	}
	if d := time.Since(start); d < 25*time.Millisecond || d > time.Second {
		t.Errorf("4 tokens in %v", d)
	}
}

func TestWaitEndsWithTheContext(t *testing.T) {
	b := New(0.1, 1)
	ctx, cancel := context.WithTimeout(context.Background(), 10*time.Millisecond)
	defer cancel()
	t.Run("first", func(t *testing.T) {
		if err := b.Wait(ctx, 1); err != nil {
			t.Fatal(err)
		}
	})
	t.Run("second", func(t *testing.T) {
		if err := b.Wait(ctx, 1); !errors.Is(err, context.DeadlineExceeded) {
			t.Fatalf("error %v", err)
		}
	})
	if err := b.Wait(ctx, 2); !errors.Is(err, ErrTooMany) || err.Error() != "2 of 1: more tokens than the bucket holds" {
		t.Errorf("error %v", err)
	}
}
