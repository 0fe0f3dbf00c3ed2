package main

import (
	"os"
	"os/exec"
	"path/filepath"
	"strconv"
	"testing"

	"golflower/tables/fuzz/program"
	"golflower/tables/fuzz/trial"
	"golflower/tables/judge"
)

// tried is how many programs are tried. Of these at most a few may be refused.
const (
	tried       = 100
	mostRefused = 10
)

// firstSeed is the seed of the first program: GOLF_SEED, or 1.
func firstSeed(t *testing.T) int64 {
	text := os.Getenv("GOLF_SEED")
	if text == "" {
		return 1
	}
	n, err := strconv.ParseInt(text, 10, 64)
	if err != nil {
		t.Fatalf("GOLF_SEED: %v", err)
	}
	return n
}

// Programs that are made at random do by golf-go what they do by Go.
func TestProgramsDoWhatTheyDoByGo(t *testing.T) {
	if os.Getenv("GOLF") == "" {
		t.Skip("GOLF does not name the program golf")
	}
	judge.GolfGo = filepath.Join(t.TempDir(), "golf-go")
	if out, err := exec.Command("go", "build", "-o", judge.GolfGo, "golflower/cmd/golf-go").CombinedOutput(); err != nil {
		t.Fatalf("%v\n%s", err, out)
	}
	var list []*trial.Program
	for i := range int64(tried) {
		seed := firstSeed(t) + i
		list = append(list, &trial.Program{Seed: seed, Text: program.Make(seed)})
	}
	if err := trial.Compare(list, 2); err != nil {
		t.Fatal(err)
	}
	count := map[judge.Kind]int{}
	for _, p := range list {
		count[p.Verdict.Kind]++
		switch p.Verdict.Kind {
		case judge.Different, judge.Unbuilt:
			t.Errorf("seed %d: %s: %s\nThe program: go run ./tables/fuzz -print -seed %d", p.Seed, p.Verdict.Kind, p.Verdict.Text, p.Seed)
		case judge.Refused:
			t.Logf("seed %d: %s", p.Seed, p.Verdict.Text)
		}
	}
	t.Log(count)
	if count[judge.Refused]+count[judge.Stopped] > mostRefused {
		t.Errorf("%d of %d programs are refused or stopped", count[judge.Refused]+count[judge.Stopped], tried)
	}
}
