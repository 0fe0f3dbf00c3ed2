package leaky

import "testing"

func TestAsks(t *testing.T) {
	if got := Ask("you"); got != "hello you" {
		t.Error(got)
	}
}

func TestAsksNobody(t *testing.T) {
	for range 3 {
		Ask("")
	}
}

func TestFirstError(t *testing.T) {
	if First(3) == nil {
		t.Error("no error")
	}
}

func TestFailsAndLeaks(t *testing.T) {
	Ask("")
	t.Error("wrong too")
}
