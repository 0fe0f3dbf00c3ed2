package shown

import "testing"

// What Go and golf-go write of the same end is the same.
func TestEndsAreComparable(t *testing.T) {
	for name, c := range map[string]struct {
		goErrs              string
		goStatus            int
		golfErrs            string
		golfStatus          int
		loweredOut, lowered string
	}{
		"returns": {"", 0, "golf-go: 1 collection, 0 goroutines reported\n", 0, "", ""},
		"a report": {"", 0, "collection 1: marked 0, reported 1\ngoroutine 2: chan send at p.go:3:2 in main, started at p.go:2:2 in main\n" +
			"golf-go: 1 collection, 1 goroutine reported\n", 1, "", ""},
		"a panic": {"panic: runtime error: integer divide by zero\n\ngoroutine 1 [running]:\nmain.main()\n", 2,
			"panic: runtime error: integer divide by zero (goroutine 1, p.go:3:2 in main)\n", 2,
			"", "panic: runtime error: integer divide by zero\n\ngoroutine 1 [running]:\n"},
		"a text that is made": {"panic: a b [recovered, repanicked]\n", 2, "panic: a b (goroutine 1, p.go:3:2 in main)\n", 2,
			"‿panic a b ‿\n", "panic: ‿\n\ngoroutine 1 [running]:\n"},
		"os.Exit": {"", 3, "golf-go: os.Exit(3) at p.go:4:2 in main\n", 3, "‿exit 3 ‿\n", "fatal error: sync: unlock of unlocked mutex\n"},
	} {
		want := ByGo("", c.goErrs, c.goStatus)
		if d := Difference(want, ByGolfGo("", c.golfErrs, c.golfStatus), "by golf"); d != "" {
			t.Errorf("%s: %s", name, d)
		}
		low, err := Lowered(c.loweredOut, c.lowered, min(c.goStatus, 2))
		if d := Difference(want, low, "lowered"); err != nil || d != "" {
			t.Errorf("%s: %v, %s", name, err, d)
		}
	}
}

func TestTheFirstLineThatDiffersIsTold(t *testing.T) {
	want := Shown{Out: "a\nb\n", End: "status 0"}
	for text, got := range map[string]Shown{
		"":                           want,
		"line 2: `b`, by golf `c`":   {Out: "a\nc\n", End: "status 0"},
		"line 3: ``, by golf `more`": {Out: "a\nb\nmore", End: "status 0"},
		"line 1 of the end: `status 0`, by golf `panic: x`": {Out: "a\nb\n", End: "panic: x"},
	} {
		if d := Difference(want, got, "by golf"); d != text {
			t.Errorf("%q, want %q", d, text)
		}
	}
}
