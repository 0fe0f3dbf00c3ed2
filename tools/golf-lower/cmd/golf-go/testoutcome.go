package main

import (
	"bytes"
	"fmt"
	"io"
	"strings"

	"golflower/lower"
	"golflower/traced"
	"golflower/verdict"
)

// noProgram is the status of the launchers of golf that cannot go on.
const noProgram = 125

// outcome is what one run of a test has shown.
type outcome struct {
	kind     verdict.Kind // without regard to leaks
	panicked bool
	clock    bool // the test has a clock
	printed  string
	log      string
	reasons  []string
	left     []verdict.Goroutine // those that are reported
	asleep   []verdict.Goroutine // if all are
}

// once runs the test, nil if that was not possible.
func (r *testRun) once(a attempt) *outcome {
	low := r.output(a.own)
	if low == nil {
		return nil
	}
	var line []string
	if a.turns != "" {
		line = append(line, "--turns", a.turns)
	}
	line = append(line, a.golf...)
	out, errs, ok := r.golf(low, "GOLF", "golf", append([]string{"run"}, line...)...)
	if !ok {
		return nil
	}
	j := &judge{testRun: r, outcome: &outcome{clock: low.Clock}, low: low, line: line}
	j.all(out, errs)
	return j.outcome
}

// golf runs a program of golf on a lowered test. It is not ok if the program could not be run to its end.
func (r *testRun) golf(low *lower.Output, variable, name string, line ...string) (out, errs string, ok bool) {
	path := program(variable, name)
	cmd := command(r.ctx, r.launched.of(path), line...)
	cmd.Env = tuned()
	cmd.Stdin = strings.NewReader(low.Text)
	var o, e bytes.Buffer
	cmd.Stdout, cmd.Stderr = &o, &e
	err := cmd.Run()
	switch {
	case r.ctx.Err() != nil:
		return "", "", false
	case failed(err):
		r.fail(&startError{startFault(variable, name, err)})
		return "", "", false
	case cmd.ProcessState.ExitCode() == noProgram:
		r.fail(&startError{strings.TrimSpace(e.String())})
		return "", "", false
	}
	r.launched.note(path, name)
	return o.String(), e.String(), true
}

// judge reads what golf says of a run.
type judge struct {
	*testRun
	*outcome
	low  *lower.Output
	line []string // the words of golf run
	rep  *reporter
	exit int // the status of os.Exit, -1 without one
}

// all reads both streams.
func (j *judge) all(out, errs string) {
	var text bytes.Buffer
	d := &lower.Decoder{Out: &text, Err: &text}
	if err := d.Copy(strings.NewReader(out)); err != nil {
		j.reasons = append(j.reasons, err.Error())
	}
	var word string
	j.printed, word, j.log = verdict.Split(text.String(), j.test.Name)
	j.exit = -1
	j.rep = &reporter{low: j.low, decoder: d, tests: true, out: io.Discard}
	j.rep.caller = j.rep.callers(j.ctx, j.line)
	for _, l := range strings.Split(errs, "\n") {
		j.errLine(l)
	}
	if j.kind == verdict.OK {
		j.byWord(word)
	}
}

// errLine reads a line of standard error.
func (j *judge) errLine(l string) {
	switch {
	case l == "", strings.HasPrefix(l, "collection "), strings.HasPrefix(l, "golf: "):
	case strings.HasPrefix(l, "goroutine "):
		if g, _, ok := reported(j.low, l); ok {
			j.left = verdict.Merge(j.left, []verdict.Goroutine{g})
		}
	case strings.HasPrefix(l, "refused: "):
		j.ends(verdict.Refused, "golf does not accept the lowered test: "+j.rep.places(strings.TrimPrefix(l, "refused: ")))
	case strings.HasPrefix(l, "stopped after "), strings.HasPrefix(l, "out of memory"):
		j.ends(verdict.Stopped, l)
	case exitRE.MatchString(l) && j.rep.decoder.Exit >= 0:
		j.exit = j.rep.decoder.Exit
	case strings.HasPrefix(l, allAsleep):
		j.ends(verdict.Deadlock, l)
		j.waiting()
	default:
		told := j.rep.ending(l)
		if j.rep.status == refused {
			j.ends(verdict.Refused, strings.TrimPrefix(told, "golf-go: "))
			return
		}
		j.panicked = true
		j.ends(verdict.Fail, told)
	}
}

// ends notes how the run ends, and why.
func (j *judge) ends(k verdict.Kind, why string) {
	j.kind = k
	j.reasons = append(j.reasons, why)
}

// byWord is the end of a run that nothing else has ended: the word of the test's verdict, and the status.
func (j *judge) byWord(word string) {
	switch {
	case word == "FAIL":
		j.kind = verdict.Fail
	case word == "" && j.exit >= 0:
		j.ends(verdict.Fail, fmt.Sprintf("os.Exit(%d) was called while the test ran", j.exit))
	case word == "":
		j.ends(verdict.Fail, "the test has not come to its end")
	case j.exit > 0:
		j.ends(verdict.Fail, fmt.Sprintf("os.Exit(%d) was called", j.exit))
	case word == "SKIP":
		j.kind = verdict.Skip
	}
}

// waiting tells who waits where if all goroutines are asleep.
func (j *judge) waiting() {
	waits, err := traced.Waits(tracer(j.ctx), j.low.Text, j.line)
	switch {
	case err != nil && j.ctx.Err() == nil:
		j.reasons = append(j.reasons, "golf-explore tells who waits where, and it could not be run: "+err.Error())
	case err == nil && len(waits) == 0:
		j.reasons = append(j.reasons, fmt.Sprintf("who waits where is told of runs with at most %d turns", traced.MostTurns))
	}
	for _, w := range waits {
		if j.rep.ofUser(w.Line) || j.rep.ofUser(w.Started) {
			j.asleep = append(j.asleep, waiter(j.low, w))
		}
	}
}
