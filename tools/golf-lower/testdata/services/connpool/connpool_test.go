package connpool

import (
	"context"
	"errors"
	"io"
	"sync"
	"testing"
	"time"

	"example.com/connpool/wire"
)

func start(t *testing.T, limit int, cfg Config) (*Pool, *wire.Server) {
	t.Helper()
	s := wire.NewServer(limit)
	cfg.Dial = s.Dial
	p := New(cfg)
	t.Cleanup(func() {
		p.Close()
		if n := s.Open(); n != 0 {
			t.Errorf("%d connections are open at the end", n)
		}
	})
	return p, s
}

func get(t *testing.T, p *Pool) *wire.Conn {
	t.Helper()
	c, err := p.Get(t.Context())
	if err != nil {
		t.Fatal(err)
	}
	return c
}

func TestConnectionsAreUsedAgain(t *testing.T) {
	p, s := start(t, 2, Config{MaxOpen: 2, MaxIdle: 1})
	a, b := get(t, p), get(t, p)
	p.Put(a, nil)
	p.Put(b, nil)
	if n := s.Open(); n != 1 {
		t.Errorf("%d open", n)
	}
	if c := get(t, p); c != a {
		t.Error("not the one that was kept")
	} else {
		p.Put(c, io.EOF)
	}
}

func TestWhoWaitsGetsTheNextConnection(t *testing.T) {
	p, s := start(t, 1, Config{MaxOpen: 1, MaxIdle: 1})
	c := get(t, p)
	var wg sync.WaitGroup
	for range 3 {
		wg.Add(1)
		go func() {
			defer wg.Done()
			c, err := p.Get(context.Background())
			if err != nil {
				t.Error(err)
				return
			}
			if sum, err := c.Call(1, 2, 65535); sum != 65538 || err != nil {
				t.Errorf("%d, %v", sum, err)
			}
			p.Put(c, nil)
		}()
	}
	time.Sleep(time.Millisecond)
	p.Put(c, errors.New("reset"))
	wg.Wait()
	if n := s.Open(); n != 1 {
		t.Errorf("%d open", n)
	}
}

func TestAFailedDialFreesItsPlace(t *testing.T) {
	p, s := start(t, 1, Config{MaxOpen: 1})
	s.Fail(true)
	if _, err := p.Get(t.Context()); !errors.Is(err, io.ErrUnexpectedEOF) {
		t.Errorf("error %v", err)
	}
	s.Fail(false)
	p.Put(get(t, p), nil)
}

func TestGivingUp(t *testing.T) {
	p, _ := start(t, 1, Config{MaxOpen: 1, MaxAge: time.Hour, MaxIdle: 1})
	c := get(t, p)
	ctx, cancel := context.WithCancel(context.Background())
	time.AfterFunc(time.Millisecond, cancel)
	if _, err := p.Get(ctx); err != context.Canceled {
		t.Errorf("error %v", err)
	}
	p.Put(c, nil)
	p.Close()
	if _, err := p.Get(context.Background()); err != ErrClosed {
		t.Errorf("error %v", err)
	}
}
