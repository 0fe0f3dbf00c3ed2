package batcher_test

import (
	"context"
	"errors"
	"sync"
	"testing"
	"time"

	"example.com/batcher"
	"example.com/batcher/record"
)

// sink keeps the sizes of batches.
type sink struct {
	sync.Mutex
	sizes []int
	err   error
}

func (s *sink) flush(_ context.Context, batch []int) error {
	s.Lock()
	defer s.Unlock()
	s.sizes = append(s.sizes, len(batch))
	return s.err
}

func add(t *testing.T, b *batcher.Batcher[int], n int) {
	t.Helper()
	var wg sync.WaitGroup
	for i := range n {
		wg.Add(1)
		go func() {
			defer wg.Done()
			if err := b.Add(context.Background(), i); err != nil {
				t.Error(err)
			}
		}()
	}
	wg.Wait()
}

func TestFullBatches(t *testing.T) {
	s := &sink{}
	b := batcher.New(3, time.Hour, s.flush)
	add(t, b, 6)
	b.Close()
	if len(s.sizes) != 2 || s.sizes[0] != 3 || s.sizes[1] != 3 {
		t.Errorf("batches %v", s.sizes)
	}
}

func TestABatchThatIsNotFullGoesAfterSomeTime(t *testing.T) {
	s := &sink{}
	b := batcher.New(100, 5*time.Millisecond, s.flush)
	defer b.Close()
	begin := time.Now()
	add(t, b, 4)
	if d := time.Since(begin); d < 5*time.Millisecond {
		t.Errorf("after %v", d)
	}
	total := 0
	for _, n := range s.sizes {
		total += n
	}
	if total != 4 {
		t.Errorf("batches %v", s.sizes)
	}
}

func TestTheErrorOfABatchIsThatOfItsItems(t *testing.T) {
	full := errors.New("disk full")
	b := batcher.New(1, time.Hour, (&sink{err: full}).flush)
	if err := b.Add(t.Context(), 1); err != full {
		t.Errorf("error %v", err)
	}
	b.Close()
	b.Close()
	if err := b.Add(t.Context(), 1); err != batcher.ErrClosed {
		t.Errorf("error %v", err)
	}
}

func TestAnItemGivesUp(t *testing.T) {
	b := batcher.New(2, time.Hour, func(ctx context.Context, batch []string) error { return nil })
	ctx, cancel := context.WithTimeout(t.Context(), 2*time.Millisecond)
	defer cancel()
	if err := b.Add(ctx, "alone"); !errors.Is(err, context.DeadlineExceeded) {
		t.Errorf("error %v", err)
	}
	b.Close()
}

func TestLines(t *testing.T) {
	got := record.Lines([]record.Record{{ID: 12, Fields: map[string]string{"name": "tea pot", "a": "1"}}, {ID: 3}})
	if want := "0003\n0012 a=1 name=\"tea pot\"\n"; got != want {
		t.Errorf("got %q, want %q", got, want)
	}
}
