package broker

import (
	"errors"
	"sync"
	"testing"
)

func subscribe(t *testing.T, b *Broker, pattern string, room int, p Policy) *Subscription {
	t.Helper()
	s, err := b.Subscribe(pattern, room, p)
	if err != nil {
		t.Fatal(err)
	}
	t.Cleanup(s.Close)
	return s
}

func publish(t *testing.T, b *Broker, bodies ...any) {
	t.Helper()
	for _, x := range bodies {
		if _, err := b.Publish("a.b", x); err != nil {
			t.Fatal(err)
		}
	}
}

func TestPolicies(t *testing.T) {
	for policy, want := range map[Policy][2]any{DropNew: {1, 2}, DropOld: {3, 4}} {
		t.Run(policy.String(), func(t *testing.T) {
			b := New()
			s := subscribe(t, b, "a.*", 2, policy)
			publish(t, b, 1, 2, 3, 4)
			if got := [2]any{(<-s.C).Body, (<-s.C).Body}; got != want {
				t.Errorf("got %v, want %v", got, want)
			}
			if n := s.Dropped(); n != 2 {
				t.Errorf("%d dropped", n)
			}
		})
	}
}

func TestAPublisherWaitsUntilTheSubscriptionIsClosed(t *testing.T) {
	b := New()
	s := subscribe(t, b, "**", 0, Block)
	var wg sync.WaitGroup
	wg.Add(1)
	go func() {
		defer wg.Done()
		publish(t, b, "nobody reads this")
	}()
	s.Close()
	wg.Wait()
	if n, err := b.Publish("a", 1); n != 0 || err != nil {
		t.Errorf("%d, %v", n, err)
	}
}

func TestAClosedBroker(t *testing.T) {
	b := New()
	subscribe(t, b, "x", 1, Block)
	b.Close()
	if _, err := b.Publish("x", 1); !errors.Is(err, ErrClosed) {
		t.Errorf("publish: %v", err)
	}
	if _, err := b.Subscribe("x", 1, Block); err != ErrClosed {
		t.Errorf("subscribe: %v", err)
	}
}
