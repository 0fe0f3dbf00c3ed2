package lower

import (
	"strings"
	"testing"

	"golflower/load"
)

// communicating does once each thing that others can see, and starts one goroutine.
const communicating = `package main

import (
	"context"
	"sync"
	"sync/atomic"
)

func main() {
	c := make(chan int, 1)
	var mu sync.Mutex
	var n atomic.Int32
	ctx, cancel := context.WithCancel(context.Background())
	go func() { c <- 1 }()
	<-c
	mu.Lock()
	mu.Unlock()
	n.Add(1)
	cancel()
	select {
	case <-ctx.Done():
	case c <- 2:
	}
	close(c)
	for range c {
	}
}
`

// held lowers a program with holds.
func held(t *testing.T, text string) *Output {
	t.Helper()
	out, err := Lower(load.Single([]load.Source{{Name: "main.go", Text: []byte(text)}}), Options{Collect: true, Hold: true})
	if err != nil {
		t.Fatal(err)
	}
	return out
}

// stalls are the user's lines before which a goroutine may be held.
func stalls(out *Output) (lines []int) {
	for i, l := range strings.Split(out.Text, "\n") {
		if text := strings.TrimSpace(l); strings.HasSuffix(text, "tall()") && out.Lines[i].Line > 0 {
			lines = append(lines, out.Lines[i].Line)
		}
	}
	return lines
}

// A hold is before each of these statements, and at the start of the goroutine.
func TestHoldsAreBeforeWhatOthersCanSee(t *testing.T) {
	out := held(t, communicating)
	want := map[int]int{14: 2, 15: 1, 16: 1, 17: 1, 18: 1, 19: 1, 20: 1, 24: 1, 25: 1}
	for _, l := range stalls(out) {
		want[l]--
	}
	for line, n := range want {
		if n != 0 {
			t.Errorf("line %d: %d holds too few\n%s", line, n, out.Text)
		}
	}
}

// The same lowering has the program without holds.
func TestThePlainFormHasNoHolds(t *testing.T) {
	out := held(t, communicating).Plain
	if lines := stalls(out); len(lines) > 0 {
		t.Errorf("holds before the lines %v", lines)
	}
	if n := strings.Count(out.Text, "\n"); n != len(out.Lines) {
		t.Errorf("%d lines, %d places", n, len(out.Lines))
	}
	alone, err := Lower(load.Single([]load.Source{{Name: "main.go", Text: []byte(communicating)}}), Options{Collect: true})
	if err != nil {
		t.Fatal(err)
	}
	if got, want := mainOf(out.Text), mainOf(alone.Text); got != want {
		t.Errorf("main is\n%s\nand lowered alone\n%s", got, want)
	}
}

// mainOf is the text of the user's main.
func mainOf(text string) string {
	_, rest, _ := strings.Cut(text, "\nfunc main() {\n")
	body, _, _ := strings.Cut(rest, "\n}\n")
	return body
}

// A program with a clock has holds that are sleeps.
func TestHoldsOfAProgramWithAClock(t *testing.T) {
	out := held(t, "package main\n\nimport \"time\"\n\nfunc main() {\n\tc := make(chan int)\n\tgo func() { c <- 1 }()\n\ttime.Sleep(1)\n\t<-c\n}\n")
	if !out.Clock || !strings.Contains(out.Text, "\ttime_stall()\n") || strings.Contains(out.Plain.Text, "\ttime_stall()\n") {
		t.Error(out.Text)
	}
}
