package scheduler

import (
	"fmt"
	"reflect"
	"testing"
	"time"

	"example.com/scheduler/queue"
)

func TestTheQueueOrdersByTimeAndThenByArrival(t *testing.T) {
	var q queue.Queue[string]
	base := time.Date(2026, 12, 1, 0, 0, 0, 0, time.UTC)
	for i, s := range []string{"d", "b", "a", "c", "e"} {
		q.Add(base.Add(time.Duration([]int{3, 1, 0, 1, 9}[i])*time.Second), s)
	}
	gone := q.Add(base, "x")
	if !q.Remove(gone) || q.Remove(gone) {
		t.Error("removed once alone")
	}
	var got []string
	for _, it := range q.Due(base.Add(5 * time.Second)) {
		got = append(got, it.Value)
	}
	if want := []string{"a", "b", "c", "d"}; !reflect.DeepEqual(got, want) {
		t.Errorf("got %v, want %v", got, want)
	}
	if next := q.Next(); next == nil || next.Value != "e" || len(q.Due(base)) != 0 {
		t.Errorf("next %+v", next)
	}
}

func TestFunctionsRunAtTheirTimes(t *testing.T) {
	s := Start()
	defer s.Stop()
	said := make(chan string, 10)
	say := func(text string) func(time.Time) { return func(time.Time) { said <- text } }
	late, err := s.After(time.Hour, "late", say("late"))
	if err != nil {
		t.Fatal(err)
	}
	s.After(20*time.Millisecond, "second", say("second"))
	s.After(5*time.Millisecond, "first", say("first"))
	if a, b := <-said, <-said; a != "first" || b != "second" {
		t.Errorf("%s, %s", a, b)
	}
	if !late.Cancel() || late.Cancel() {
		t.Error("cancelled once alone")
	}
}

func TestEvery(t *testing.T) {
	s := Start()
	ticks := make(chan time.Time)
	begin := time.Now()
	if _, err := s.Every(3*time.Millisecond, 3, "tick", func(now time.Time) { ticks <- now }); err != nil {
		t.Fatal(err)
	}
	for i := range 3 {
		if d := (<-ticks).Sub(begin); d < time.Duration(i+1)*3*time.Millisecond {
			t.Errorf("tick %d after %v", i, d)
		}
	}
	s.Stop()
	s.Stop()
	if _, err := s.After(0, "never", nil); fmt.Sprint(err) != "scheduler: stopped" {
		t.Errorf("error %v", err)
	}
}
