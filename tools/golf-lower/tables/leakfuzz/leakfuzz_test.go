package main

import (
	"os"
	"testing"

	"golflower/load"
)

// tried is how many programs are tried. Of their leaks a few may be missed: a leak may need an order in which goroutines
// seldom run by seeds, such as the newest one first.
const (
	tried      = 20
	mostMissed = 2
)

// Each goroutine that golf reports is one that Go's profile of leaks finds, and golf finds those that the profile does.
func TestReportsAreThoseOfGosProfile(t *testing.T) {
	if os.Getenv("GOLF") == "" || os.Getenv("GOLF_EXPLORE") == "" {
		t.Skip("GOLF and GOLF_EXPLORE do not name the programs")
	}
	if !load.Since("go1.27") {
		t.Skip("left out, since the profile goroutineleak is that of Go 1.27")
	}
	outcomes, err := compareAll(1, tried, 2)
	if err != nil {
		t.Fatal(err)
	}
	var s summary
	for _, o := range outcomes {
		s.add(o)
		if w := o.wrong(); w != "" {
			t.Logf("seed %d: %s\nThe program: go run ./tables/leakfuzz -print -seed %d", o.seed, w, o.seed)
		}
		if o.err != nil || len(o.beside) > 0 {
			t.Errorf("seed %d: golf reports what Go never shows, or a run fails", o.seed)
		}
	}
	t.Log(s)
	if missed := s.leaks - s.alike; missed > mostMissed {
		t.Errorf("%d leaks are missed", missed)
	}
	if s.leaks == 0 {
		t.Error("no program leaks by Go")
	}
}

// The text is that of Go's stacks.
func TestStacksOfLeaksAreRead(t *testing.T) {
	for stack, want := range map[string]leak{
		`goroutine 21 [chan send (leaked)]:
tried/p1.Main.func1(...)
	/tmp/x/p1/p.go:17 +0x2c
created by tried/p1.Main in goroutine 20
	/tmp/x/p1/p.go:15 +0x5d`: {17, 15},
		`goroutine 8 [sync.Mutex.Lock (leaked)]:
internal/sync.runtime_SemacquireMutex(0x0, 0x0, 0x0)
	/usr/local/go/src/runtime/sema.go:95 +0x25
sync.(*Mutex).Lock(...)
	/usr/local/go/src/sync/mutex.go:46
tried/p1.Main.func2()
	/tmp/x/p1/p.go:20 +0x2c
tried/p1.Main()
	/tmp/x/p1/p.go:33 +0x2c
created by sync.(*WaitGroup).Go in goroutine 1
	/usr/local/go/src/sync/waitgroup.go:100 +0x5d`: {20, 0},
		`goroutine 1 [running]:
main.main()
	/tmp/x/p.go:3 +0x1`: {},
	} {
		if got, ok := leakOf(stack); got != want || ok != (want != leak{}) {
			t.Errorf("%s: %v, want %v", stack, got, want)
		}
	}
}
