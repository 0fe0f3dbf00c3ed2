package breaker

import (
	"context"
	"errors"
	"strings"
	"testing"
	"time"

	"example.com/breaker/window"
)

type clock struct{ now time.Time }

func (c *clock) Now() time.Time       { return c.now }
func (c *clock) pass(d time.Duration) { c.now = c.now.Add(d) }

var down = errors.New("down")

func fails() (int, error)    { return 0, down }
func succeeds() (int, error) { return 1, nil }

func make4(c *clock, log *[]string) *Breaker {
	return New(Settings{Name: "db", Window: 8 * time.Second, Least: 4, Rate: 0.5, Cooldown: time.Minute, Trials: 2, Now: c.Now,
		OnChange: func(name string, from, to State) { *log = append(*log, name+" "+from.String()+" "+to.String()) }})
}

func TestTheWindowForgets(t *testing.T) {
	w := window.New(8 * time.Second)
	c := &clock{time.Unix(1000, 0)}
	for i := range 12 {
		w.Add(c.now, i%2 == 0)
		c.pass(time.Second)
	}
	if got := w.Sum(c.now); got.Total() != 7 || got.Failures != 4 {
		t.Errorf("sum %+v, rate %.3f", got, got.Rate())
	}
	c.pass(time.Hour)
	if got := w.Sum(c.now); got != (window.Counts{}) || got.Rate() != 0 {
		t.Errorf("sum %+v", got)
	}
}

func TestItOpensAndCloses(t *testing.T) {
	c := &clock{time.Unix(0, 0)}
	var log []string
	b := make4(c, &log)
	Call(b, succeeds)
	Call(b, succeeds)
	Call(b, fails)
	if b.State() != Closed {
		t.Fatal("open too early")
	}
	if _, err := Call(b, fails); err != down || b.State() != Open {
		t.Fatalf("%v, %v", err, b.State())
	}
	if _, err := Call(b, succeeds); !errors.Is(err, ErrOpen) || err.Error() != "db: breaker: open" {
		t.Errorf("error %v", err)
	}
	c.pass(time.Minute)
	Call(b, fails)
	c.pass(time.Minute)
	for range 2 {
		if v, err := Call(b, succeeds); v != 1 || err != nil {
			t.Errorf("%d, %v", v, err)
		}
	}
	want := "db closed open,db open half-open,db half-open open,db open half-open,db half-open closed"
	if got := strings.Join(log, ","); got != want {
		t.Errorf("changes\n%s, want\n%s", got, want)
	}
}

func TestAPanicIsAFailure(t *testing.T) {
	c := &clock{time.Unix(0, 0)}
	b := make4(c, new([]string))
	for range 4 {
		func() {
			defer func() {
				if v := recover(); v != "lost" {
					t.Errorf("recovered %v", v)
				}
			}()
			Call(b, func() (string, error) { panic("lost") })
		}()
	}
	if b.State() != Open {
		t.Error(b.State())
	}
}

func TestCancelledCallsDoNotCount(t *testing.T) {
	c := &clock{time.Unix(0, 0)}
	b := make4(c, new([]string))
	for range 9 {
		Call(b, func() (bool, error) { return false, context.Canceled })
	}
	if b.State() != Closed || State(9).String() != "State(9)" {
		t.Error(b.State())
	}
}
