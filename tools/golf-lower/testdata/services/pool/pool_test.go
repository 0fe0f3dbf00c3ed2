package pool

import (
	"context"
	"errors"
	"strings"
	"testing"
	"time"
)

func constant(n int) Job[int] {
	return func(context.Context) (int, error) { return n, nil }
}

func TestResultsHaveTheOrderOfTheJobs(t *testing.T) {
	p := New[int](3)
	defer p.Close()
	slow := func(ctx context.Context) (int, error) {
		select {
		case <-time.After(20 * time.Millisecond):
			return 1, nil
		case <-ctx.Done():
			return 0, ctx.Err()
		}
	}
	got, err := p.All(t.Context(), slow, constant(2), constant(3))
	if err != nil || len(got) != 3 || got[0] != 1 || got[2] != 3 {
		t.Fatalf("got %v, %v", got, err)
	}
	if s := p.Stats(); s.Done != 3 || s.Failed != 0 {
		t.Errorf("stats %+v", s)
	}
}

func TestAPanicIsTheErrorOfItsJob(t *testing.T) {
	p := New[int](2)
	defer p.Close()
	var list []int
	_, err := p.All(t.Context(), constant(1), func(context.Context) (int, error) { return list[3], nil })
	var pe *PanicError
	if !errors.As(err, &pe) || pe.Job != 1 || !strings.Contains(err.Error(), "index out of range [3]") {
		t.Fatalf("error %v", err)
	}
}

func TestSubmitAfterCloseFails(t *testing.T) {
	p := New[string](1)
	p.Close()
	p.Close()
	if _, err := p.Submit(context.Background(), nil); !errors.Is(err, ErrClosed) {
		t.Errorf("error %v", err)
	}
}

func TestABusyPoolGivesUpWithTheContext(t *testing.T) {
	p := New[int](1)
	release := make(chan struct{})
	first, err := p.Submit(context.Background(), func(context.Context) (int, error) {
		<-release
		return 5, nil
	})
	if err != nil {
		t.Fatal(err)
	}
	ctx, cancel := context.WithTimeout(context.Background(), 5*time.Millisecond)
	defer cancel()
	if _, err := p.Submit(ctx, constant(1)); !errors.Is(err, context.DeadlineExceeded) {
		t.Errorf("error %v", err)
	}
	close(release)
	if r := <-first; r.Value != 5 {
		t.Errorf("result %v", r)
	}
	p.Close()
}
