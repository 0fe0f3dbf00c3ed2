package cache_test

import (
	"context"
	"errors"
	"strings"
	"sync"
	"testing"
	"time"

	"example.com/cache"
	"example.com/cache/lru"
)

func TestTheLeastUsedValueGoes(t *testing.T) {
	var gone []string
	l := lru.List[string, int]{Size: 2, Evicted: func(k string, v int) { gone = append(gone, k) }}
	l.Put("a", 1)
	l.Put("b", 2)
	l.Get("a")
	l.Put("c", 3)
	l.Put("a", 4)
	l.Delete("c")
	if s := strings.Join(gone, ""); s != "bc" || l.Len() != 1 {
		t.Errorf("gone %q, %d left", s, l.Len())
	}
	for k, v := range l.All() {
		if k != "a" || v != 4 {
			t.Errorf("%s %d", k, v)
		}
	}
}

func TestOneLoadForAll(t *testing.T) {
	begin := make(chan struct{})
	c := cache.New(4, time.Minute, time.Hour, func(_ context.Context, key string) (int, error) {
		<-begin
		return len(key), nil
	})
	defer c.Close()
	var wg sync.WaitGroup
	for range 5 {
		wg.Add(1)
		go func() {
			defer wg.Done()
			if n, err := c.Get(t.Context(), "four"); n != 4 || err != nil {
				t.Errorf("%d, %v", n, err)
			}
		}()
	}
	time.Sleep(5 * time.Millisecond)
	close(begin)
	wg.Wait()
	if s := c.Stats(); s.Loads != 1 || s.Shared+s.Hits != 4 {
		t.Errorf("%+v", s)
	}
}

func TestErrorsAreNotKept(t *testing.T) {
	failed := errors.New("no connection")
	tries := 0
	c := cache.New(4, time.Minute, time.Hour, func(context.Context, int) (string, error) {
		if tries++; tries == 1 {
			return "", failed
		}
		return "value", nil
	})
	defer c.Close()
	if _, err := c.Get(t.Context(), 1); !errors.Is(err, failed) {
		t.Errorf("error %v", err)
	}
	if v, err := c.Get(t.Context(), 1); v != "value" || err != nil {
		t.Errorf("%q, %v", v, err)
	}
}

func TestValuesExpire(t *testing.T) {
	c := cache.New(4, 10*time.Millisecond, 5*time.Millisecond, func(_ context.Context, key int) (int, error) { return key * key, nil })
	defer c.Close()
	for _, k := range []int{1, 2, 2} {
		c.Get(t.Context(), k)
	}
	time.Sleep(60 * time.Millisecond)
	if s := c.Stats(); s != (cache.Stats{Hits: 1, Loads: 2, Expired: 2}) {
		t.Errorf("%+v", s)
	}
}
