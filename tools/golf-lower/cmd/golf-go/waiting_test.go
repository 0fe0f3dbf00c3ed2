package main

import (
	"bytes"
	"os"
	"os/exec"
	"path/filepath"
	"regexp"
	"slices"
	"strings"
	"testing"
)

const sleepers = "../../testdata/asleep/"

// explorers skips a test unless both programs are named.
func explorers(t *testing.T) {
	t.Helper()
	for _, name := range []string{"GOLF", "GOLF_EXPLORE"} {
		if os.Getenv(name) == "" {
			t.Skip(name + " does not name a program")
		}
	}
}

var (
	// what Go tells of a goroutine: its state, a line of a frame, the line that started it
	stateRE = regexp.MustCompile(`(?m)^goroutine \d+ \[(.+)\]:$`)
	frameRE = regexp.MustCompile(`/testdata/asleep/\w+\.go:(\d+)`)
	// what golf-go tells of one
	waitRE = regexp.MustCompile(`^goroutine \d+: ([^,]+?) at \w+\.go:(\d+):\d+ in \S+?(?:, started at \w+\.go:(\d+):\d+ in \S+?)?(?:, on [^,]+)?(, locked by .+)?$`)
)

// waitsByGo are the goroutines that Go tells of where all are asleep.
func waitsByGo(t *testing.T, file string) []string {
	t.Helper()
	said, _ := exec.Command("go", "run", file).CombinedOutput() // its status is that of a fatal error
	var waits []string
	for _, block := range strings.Split(string(said), "\n\n") {
		state := stateRE.FindStringSubmatch(block)
		if state == nil {
			continue
		}
		frames, created, _ := strings.Cut(block, "created by ")
		line := "none"
		if m := frameRE.FindStringSubmatch(frames); m != nil {
			line = m[1]
		}
		wait := state[1] + " at line " + line
		if m := frameRE.FindStringSubmatch(created); m != nil {
			wait += ", started at line " + m[1]
		}
		waits = append(waits, wait)
	}
	slices.Sort(waits)
	return waits
}

// waitsByGolf are those that golf-go tells of, and who holds which lock.
func waitsByGolf(t *testing.T, line string) (waits, holders []string) {
	t.Helper()
	var out, errs bytes.Buffer
	if status := run(t.Context(), strings.Fields(line), &out, &errs); status != 2 {
		t.Errorf("status %d\n%s", status, errs.String())
	}
	for _, l := range strings.Split(errs.String(), "\n") {
		if m := waitRE.FindStringSubmatch(l); m != nil {
			wait := m[1] + " at line " + m[2]
			if m[3] != "" {
				wait += ", started at line " + m[3]
			}
			waits = append(waits, wait)
			if m[4] != "" {
				holders = append(holders, "line "+m[2]+m[4])
			}
		}
	}
	slices.Sort(waits)
	return waits, holders
}

// Of each goroutine golf-go tells what Go does.
func TestWhoWaitsIsWhatGoTells(t *testing.T) {
	explorers(t)
	files, err := filepath.Glob(sleepers + "*.go")
	if err != nil || len(files) == 0 {
		t.Fatal("no files", err)
	}
	for _, file := range files {
		t.Run(filepath.Base(file), func(t *testing.T) {
			want := waitsByGo(t, file)
			if got, _ := waitsByGolf(t, file); len(want) == 0 || !slices.Equal(got, want) {
				t.Errorf("%s\nwant\n%s", strings.Join(got, "\n"), strings.Join(want, "\n"))
			}
		})
	}
}

// holders are the goroutines that can hold the locks: no other one has locked them, or the others have unlocked them.
var holders = map[string][]string{
	"early_return.go": {"line 26, locked by goroutine 3 at early_return.go:10:3 in count"},
	"handed_over.go":  {"line 26, locked by goroutine 2 at handed_over.go:11:2 in keep"},
	"lock_cycle.go": {"line 15, locked by goroutine 3 at lock_cycle.go:12:2 in transfer",
		"line 15, locked by goroutine 2 at lock_cycle.go:12:2 in transfer"},
	"locked_twice.go": {"line 12, locked by itself at locked_twice.go:18:2 in (*store).double"},
	"reader.go":       {"line 17, locked by goroutine 2 at reader.go:9:2 in read"},
	"recovers.go":     {"line 15, locked by itself at recovers.go:21:2 in work"},
	"two_readers.go":  nil, // two goroutines hold it
}

func TestWhoHoldsALockIsTold(t *testing.T) {
	explorers(t)
	for file, want := range holders {
		if _, got := waitsByGolf(t, sleepers+file); !slices.Equal(got, want) {
			t.Errorf("%s: %q, want %q", file, got, want)
		}
	}
}

// Each schedule repeats its own run.
func TestWhoWaitsIsToldUnderEachSchedule(t *testing.T) {
	explorers(t)
	for _, words := range []string{"--schedule seed:1", "--schedule=seed:18446744073709551615", "--threads 2", "--every 7 --why",
		"--turns 500"} {
		waits, holders := waitsByGolf(t, sleepers+"lock_cycle.go "+words)
		if len(waits) != 3 || len(holders) != 2 || slices.ContainsFunc(waits, func(s string) bool { return strings.HasPrefix(s, "blocked") }) {
			t.Errorf("%s: %q, %q", words, waits, holders)
		}
	}
}

// Without golf-explore the run is told as before, with a line that says what is missing.
func TestWithoutGolfExploreNobodyIsListed(t *testing.T) {
	explorers(t)
	t.Setenv("GOLF_EXPLORE", "/nowhere/golf-explore")
	var out, errs bytes.Buffer
	status := run(t.Context(), []string{sleepers + "locked_twice.go"}, &out, &errs)
	const want = "fatal error: all goroutines are asleep - deadlock!\n" +
		"golf-go: golf-explore tells who waits where, and it could not be run: "
	if status != 2 || !strings.HasPrefix(errs.String(), want) {
		t.Errorf("status %d\n%s", status, errs.String())
	}
}
