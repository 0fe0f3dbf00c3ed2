package main

import (
	"errors"
	"fmt"
	"io/fs"
	"os"
	"path/filepath"
	"slices"
	"strconv"
	"strings"
	"time"

	"golflower/lower"
	"golflower/verdict"
)

// preemptions are the most that the search for a leak tries.
const preemptions = 1

// allPart is the part of the states of a search in which every schedule is tried first.
const allPart = 10

// search looks for a schedule that leaks, in the test without holds. First every schedule is tried, with a part of the states.
// Time passes there while goroutines run.
func (r *testRun) search() {
	if r.words.search == 0 {
		return
	}
	own := r.words.own
	own.loose = own.loose || r.output(own).Clock
	low := r.output(own)
	if low == nil {
		return
	}
	limit := strconv.Itoa(max(r.words.states/allPart, 1))
	all := r.explore(low, "all", "--states", limit)
	if all == nil {
		return
	}
	r.test.Tried.Loose = own.loose
	if all.complete() {
		r.test.Tried.Every = true
		r.endings(low, own, all)
		return
	}
	if r.found(low, own, all) {
		return
	}
	seconds := strconv.Itoa(max(int((r.words.search+time.Second-1)/time.Second), 1))
	answer := r.explore(low, "search", "--preemptions", strconv.Itoa(preemptions), "--states", strconv.Itoa(r.words.states), "--seconds", seconds)
	if answer == nil || r.found(low, own, answer) {
		return
	}
	answer.note(&r.test.Tried, r.words)
}

// answer is what golf-explore says.
type answer struct {
	first string   // the line of the answer
	lines []string // all of them
	leaks []verdict.Goroutine
}

// explore runs golf-explore on a lowered test, nil if that was not possible.
func (r *testRun) explore(low *lower.Output, line ...string) *answer {
	out, errs, ok := r.golf(low, "GOLF_EXPLORE", "golf-explore", line...)
	if !ok {
		return nil
	}
	a := &answer{}
	a.lines = strings.Split(out, "\n")
	a.first = a.lines[0]
	for _, l := range strings.Split(out+errs, "\n") {
		if g, _, ok := reported(low, l); ok && strings.HasPrefix(l, "goroutine ") {
			a.leaks = verdict.Merge(a.leaks, []verdict.Goroutine{g})
		}
	}
	return a
}

// complete says whether every schedule was looked at, without a leak.
func (a *answer) complete() bool { return strings.HasPrefix(a.first, "every schedule: ") }

// endings looks for how the test ends badly, if it does so by some schedule. By the loose clock it may fail since time passes:
// then only a deadlock counts.
func (r *testRun) endings(low *lower.Output, own words, all *answer) {
	for _, e := range []struct{ said, what string }{
		{"all asleep under some schedule", "asleep"},
		{"panics under some schedule", "panic"},
	} {
		if !slices.Contains(all.lines, e.said) || e.what == "panic" && own.loose {
			continue
		}
		found := r.explore(low, "search", "--for", e.what, "--states", strconv.Itoa(r.words.states))
		if found == nil {
			return
		}
		schedule, ok := strings.CutPrefix(found.first, e.what+": --")
		if !ok {
			continue
		}
		a := attempt{own, turns, strings.Fields("--" + schedule)}
		if o := r.once(a); o != nil && o.kind > verdict.Leak {
			r.keep(o, r.command(a))
			return
		}
	}
}

// note notes what a search without a leak has tried.
func (a *answer) note(t *verdict.Tried, w *testWords) {
	switch {
	case strings.HasPrefix(a.first, "nothing found: "):
		t.Preemptions = preemptions
	case strings.HasPrefix(a.first, "stopped: more than "):
		t.States = w.states
	case strings.HasPrefix(a.first, "stopped: after "):
		t.Time = w.search
	}
}

// found keeps the leak of an answer. A leak of a run by the loose clock does not count if the test fails in it.
func (r *testRun) found(low *lower.Output, own words, a *answer) bool {
	said, ok := strings.CutPrefix(a.first, "leak: ")
	if !ok {
		return false
	}
	if len(a.leaks) == 0 { // no run has so many turns, so nobody is named
		r.test.Kind = max(r.test.Kind, verdict.Leak)
		r.test.Reasons = append(r.test.Reasons, a.first)
		return true
	}
	schedule := strings.Fields(said)
	if !strings.HasPrefix(said, "--") { // the numbers are more than words may have
		schedule = nil
	}
	if own.loose && r.fails(low, schedule) {
		return true
	}
	again := r.command(attempt{own: own, golf: schedule})
	if schedule != nil && slices.ContainsFunc(a.leaks, func(g verdict.Goroutine) bool { return !r.known.Has(&g) }) &&
		r.remember(append(own.added(), schedule...)) {
		again = r.byMemory()
	}
	r.leaks(a.leaks, again)
	return true
}

// byMemory is the command that runs the test by the schedules of its file.
func (r *testRun) byMemory() string {
	return fmt.Sprintf("%s (testdata/golf/%s has the schedule)", r.command(attempt{}), r.test.Name)
}

// moreNumbers are how many numbers are put behind a schedule, so that the test comes to its end.
const moreNumbers = 50000

// fails says whether the test fails when a schedule goes on.
func (r *testRun) fails(low *lower.Output, schedule []string) bool {
	if len(schedule) == 0 {
		return false
	}
	var longer strings.Builder
	longer.WriteString(schedule[len(schedule)-1])
	x := uint32(1)
	for range moreNumbers {
		x = x*1664525 + 1013904223
		longer.WriteByte(',')
		longer.WriteByte(byte('0' + x>>16%10))
	}
	line := append([]string{"trace"}, schedule[:len(schedule)-1]...)
	out, _, ok := r.golf(low, "GOLF_EXPLORE", "golf-explore", append(line, longer.String())...)
	if !ok {
		return false
	}
	var text strings.Builder
	if err := (&lower.Decoder{Out: &text, Err: &text}).Copy(strings.NewReader(out)); err != nil {
		return false
	}
	_, word, _ := verdict.Split(text.String(), r.test.Name)
	return word == "FAIL"
}

// memory is the file with the schedules under which the test has leaked once.
func (r *testRun) memory() string { return filepath.Join(r.unit.Dir, "testdata", "golf", r.test.Name) }

// schedules are the lines of that file.
func (r *testRun) schedules() []string {
	text, err := os.ReadFile(r.memory())
	if err != nil {
		if !errors.Is(err, fs.ErrNotExist) {
			fmt.Fprintln(r.stderr, "golf-go:", err)
		}
		return nil
	}
	var list []string
	for _, l := range strings.Split(string(text), "\n") {
		if l = strings.TrimSpace(l); l != "" && !strings.HasPrefix(l, "#") {
			list = append(list, l)
		}
	}
	return list
}

// remembered runs the test by the schedules under which it has leaked once.
func (r *testRun) remembered() {
	for _, l := range r.schedules() {
		a, wrong := attemptOf(l)
		if wrong != "" {
			fmt.Fprintf(r.stderr, "golf-go: %s: %s\n", r.memory(), wrong)
			continue
		}
		r.takeMore(r.once(a), a, r.byMemory())
		if r.over() {
			return
		}
	}
}

// attemptOf reads the words of a schedule.
func attemptOf(line string) (attempt, string) {
	w := &testWords{}
	for args := strings.Fields(line); len(args) > 0; {
		rest, ok := w.ofRun(args)
		if !ok {
			return attempt{}, "no word of a schedule: " + args[0]
		}
		args = rest
	}
	a := attempt{own: w.own, golf: w.own.golf}
	if !w.own.turns {
		a.turns = turns
	}
	a.own.golf, a.own.chosen, a.own.turns = nil, false, false
	return a, w.wrongOwn()
}

// remember writes the words of a schedule into the file, unless it has them. It says whether they are there.
func (r *testRun) remember(words []string) bool {
	line := strings.Join(words, " ")
	if slices.Contains(r.schedules(), line) {
		return true
	}
	name := r.memory()
	err := os.MkdirAll(filepath.Dir(name), 0o777)
	if err == nil {
		err = appendTo(name, line)
	}
	if err != nil {
		fmt.Fprintln(r.stderr, "golf-go: the schedule of a leak cannot be kept:", err)
	}
	return err == nil
}

// appendTo adds a line to a file. A new file says what it is.
func appendTo(name, line string) error {
	f, err := os.OpenFile(name, os.O_APPEND|os.O_CREATE|os.O_WRONLY, 0o666)
	if err != nil {
		return err
	}
	head := ""
	if info, err := f.Stat(); err == nil && info.Size() == 0 {
		head = "# Schedules under which this test has leaked. golf-go test runs it by them each time.\n"
	}
	_, err = f.WriteString(head + line + "\n")
	return errors.Join(err, f.Close())
}
