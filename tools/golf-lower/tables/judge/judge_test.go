package judge

import (
	"fmt"
	"os"
	"path/filepath"
	"strings"
	"testing"
)

func TestReasonLeavesPlaceAndDetailsOut(t *testing.T) {
	for in, want := range map[string]string{
		"refused: a.go:3:4: address of an element of type int: not supported":                          "address of an element of type ..",
		"golf-go: not supported: printing an address is not supported (goroutine 1, p.go:3:2 in main)": "printing an address is not supported",
		"refused: golf does not accept the lowered file: line 2: rule 3":                               "golf does not accept the lowered file: line 2: rule 3",
		"refused: x/y.go:10:2: os.Open: not supported, or no name of its package":                      "os.Open: not supported, or no name of its package",
	} {
		if got := Reason(in); got != want {
			t.Errorf("%s: %q, want %q", in, got, want)
		}
	}
}

// as runs f with another program in the place of golf-go, and returns why the table's program would have ended.
func as(golfGo string, f func()) (ended error) {
	oldGolfGo, oldQuit := GolfGo, quit
	defer func() {
		GolfGo, quit = oldGolfGo, oldQuit
		if e, ok := recover().(error); ok {
			ended = e
		}
	}()
	GolfGo, quit = golfGo, func(err error) { panic(err) }
	f()
	return nil
}

// script writes a program in place of golf-go.
func script(t *testing.T, text string) string {
	t.Helper()
	name := filepath.Join(t.TempDir(), "golf-go")
	if err := os.WriteFile(name, []byte("#!/bin/sh\n"+text), 0o777); err != nil {
		t.Fatal(err)
	}
	return name
}

// A program that cannot be judged, since golf-go or golf is not there, has no verdict: the table's program ends.
func TestAMissingProgramIsNoVerdict(t *testing.T) {
	noGolf := script(t, "echo 'golf-go: there is no program golf beside golf-go or on the path' >&2; exit 6\n")
	for name, c := range map[string]struct{ golfGo, want string }{
		"GOLF_GO is not set":     {"", "no command"},
		"GOLF_GO names nothing":  {filepath.Join(t.TempDir(), "missing"), "no such file"},
		"GOLF_GO names a folder": {t.TempDir(), "permission denied"},
		"golf-go finds no golf":  {noGolf, "there is no program golf"},
	} {
		for way, f := range map[string]func(){
			"ByGolf": func() { ByGolf(Shown{}, ".", "x.go") },
			"Wanted": func() { Wanted("", "x.go") },
			"Said":   func() { Said("x.go") },
		} {
			if err := as(c.golfGo, f); err == nil || !strings.Contains(err.Error(), c.want) {
				t.Errorf("%s, by %s: ended by %v, want %q", name, way, err, c.want)
			}
		}
	}
}

func TestReadySaysWhatIsMissing(t *testing.T) {
	for golfGo, want := range map[string]string{
		"":                                    "GOLF_GO names no program",
		filepath.Join(t.TempDir(), "nowhere"): "no program that can be started",
		script(t, ""):                         "<nil>",
	} {
		as(golfGo, func() {
			if got := fmt.Sprint(Ready()); !strings.Contains(got, want) {
				t.Errorf("%q: %s, want %q", golfGo, got, want)
			}
		})
	}
}

// What a run of golf-go says is a verdict if it is refused or has not ended, and is compared if not.
func TestVerdictsOfWhatGolfGoSays(t *testing.T) {
	for text, want := range map[string]Kind{
		"echo 'refused: x.go:1:1: no' >&2; exit 4":        Refused,
		"echo 'golf-go: not supported: that' >&2; exit 4": Refused,
		"echo 'stopped after 10 turns' >&2; exit 3":       Stopped,
		"echo a; exit 0": Same,
		"echo b; exit 0": Different,
		"echo a; echo 'golf-go: os.Exit(6) at p.go:3:2 in main' >&2; exit 6": Different,
	} {
		var got Verdict
		err := as(script(t, text+"\n"), func() { got = ByGolf(Shown{Out: "a\n", End: "status 0"}, ".", "x.go") })
		if err != nil || got.Kind != want {
			t.Errorf("%s: %v, %v, want %s", text, got, err, want)
		}
	}
}
