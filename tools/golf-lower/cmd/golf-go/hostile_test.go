package main

import (
	"os/exec"
	"path/filepath"
	"slices"
	"strings"
	"testing"

	"golflower/load"
)

// leakedByGo are the places in a file where goroutines wait that Go's profile of leaks has, and what the program prints before.
func leakedByGo(t *testing.T, file string) (waits []string, printed string) {
	t.Helper()
	said, err := exec.Command("go", "run", file).Output()
	if err != nil {
		t.Fatal(err)
	}
	for _, stack := range strings.Split(string(said), "\n\n") {
		before, rest, ok := strings.Cut(stack, "goroutine ")
		printed += before
		if !ok || !strings.Contains(rest, "(leaked)") {
			continue
		}
		_, rest, _ = strings.Cut(rest, "/"+filepath.Base(file)+":")
		_, behind := leadingNumber(rest)
		waits = append(waits, strings.TrimSuffix(rest, behind))
	}
	slices.Sort(waits)
	return waits, printed
}

// leakedByGolf are those that golf-go reports, and what the program prints.
func leakedByGolf(t *testing.T, file string) (waits []string, printed string) {
	t.Helper()
	printed, errs, _ := said(t, file)
	for _, l := range strings.Split(errs, "\n") {
		if _, rest, ok := strings.Cut(l, " at "+filepath.Base(file)+":"); ok && strings.HasPrefix(l, "goroutine ") {
			line, _, _ := strings.Cut(rest, ":")
			waits = append(waits, line)
		}
	}
	slices.Sort(waits)
	return waits, printed
}

// The goroutines that golf-go reports of hostile files are those of Go's profile of leaks.
func TestReportsOfHostileFilesAreThoseOfGosProfile(t *testing.T) {
	explorers(t)
	if !load.Since("go1.27") {
		t.Skip("left out, since the profile goroutineleak is that of Go 1.27")
	}
	files, err := filepath.Glob("../../testdata/hostile/*.go")
	if err != nil || len(files) == 0 {
		t.Fatal("no files", err)
	}
	for _, file := range files {
		t.Run(filepath.Base(file), func(t *testing.T) {
			want, printed := leakedByGo(t, file)
			if got, out := leakedByGolf(t, file); !slices.Equal(got, want) || out != printed {
				t.Errorf("lines %q, want %q\n%swant\n%s", got, want, out, printed)
			}
		})
	}
}
