package main

import (
	"fmt"
	"os"
	"strconv"
	"strings"

	"golflower/load"
	"golflower/lower"
	"golflower/verdict"
)

// The schedules that are tried for each test beside rotation, and the turns that each of them has. A test with a clock is also
// run by the loose clock, by seeds with holds and by seeds with goroutines that begin late.
const (
	plainSeeds = 3
	holdSeeds  = 12
	looseSeeds = 2
	tryTurns   = "1000000"
	lateTurns  = "3000000"
)

// testRun is one test that is run.
type testRun struct {
	*harness
	unit      *load.Unit
	loader    *load.Loader
	test      *verdict.Test
	lowerings map[lowering]*lower.Output
	needs     lower.Needs
	leftOut   bool // it is told that a run was refused
}

// lowering is how a test is lowered. Each has holds, and in Plain the same without them.
type lowering struct{ late, pause, loose bool }

// attempt is one run of a test.
type attempt struct {
	own   words    // how the test is lowered
	turns string   // the most turns
	golf  []string // the other words of golf run
}

// command is the command line that shows an attempt again.
func (r *testRun) command(a attempt) string {
	line := []string{"golf-go", "test", "-run", "'^" + r.test.Name + "$'"}
	if r.words.short {
		line = append(line, "-short")
	}
	line = append(line, a.own.added()...)
	return strings.Join(append(append(line, a.golf...), r.unit.Path), " ")
}

// added are the words of the lowering.
func (w words) added() []string {
	var list []string
	for _, one := range []struct {
		is   bool
		word string
	}{{w.late, "--late"}, {w.pause, "--pause"}, {w.hold, "--hold"}, {w.loose, "--clock loose"}} {
		if one.is {
			list = append(list, one.word)
		}
	}
	return list
}

// whole runs the test by all schedules that are asked for, up to the first one that shows something new.
func (r *testRun) whole() {
	own := r.words.own
	if r.output(own) == nil {
		r.refused(own)
		return
	}
	if len(own.golf) > 0 || own.hold {
		r.chosen(own)
		return
	}
	first := attempt{own, turns, []string{"--every", every, "--schedule", "rotate"}}
	r.takeFirst(r.once(first), first)
	if r.test.Kind == verdict.Skip {
		return
	}
	if !r.output(own).Starts { // other schedules do the same
		r.test.Tried.Alone = true
		r.over()
		return
	}
	for _, more := range []func(){r.remembered, r.seeds, r.search} {
		if r.over() {
			return
		}
		more()
	}
	r.over()
}

// over says whether there is nothing more to look for.
func (r *testRun) over() bool {
	if r.ctx.Err() != nil && r.test.Kind <= verdict.Skip {
		r.test.Kind = verdict.Stopped
		r.test.Reasons = []string{fmt.Sprintf("stopped: the time of the whole run is over (-timeout %v)", r.words.timeout)}
	}
	return r.test.Kind > verdict.Skip
}

// options are how the test is lowered.
func (r *testRun) options(own words) lower.Options {
	own.hold = true
	opt := own.options()
	opt.Tests, opt.Only, opt.Short = true, r.test.Name, r.words.short
	return opt
}

// output is the lowered test, nil if it is refused. It is lowered once for runs with holds and for those without.
func (r *testRun) output(own words) *lower.Output {
	key := lowering{own.late, own.pause, own.loose}
	low, known := r.lowerings[key]
	if !known && r.ctx.Err() == nil {
		low, _ = r.needs.Loaded(r.loader, r.options(own)) // why it is refused is told by refused
		r.lowerings[key] = low
	}
	if low == nil || own.hold {
		return low
	}
	return low.Plain
}

// refused says why the test is refused, all reasons at once.
func (r *testRun) refused(own words) {
	if r.over() {
		return
	}
	r.test.Kind = verdict.Refused
	for _, e := range lower.Refusals(r.loader, r.options(own)) {
		r.test.Reasons = append(r.test.Reasons, e.Error())
	}
}

// chosen runs the test once, by the words of the command line.
func (r *testRun) chosen(own words) {
	if name := os.Getenv("GOLF_LOWERED"); name != "" {
		if err := os.WriteFile(name, []byte(r.output(own).Text), 0o666); err != nil {
			r.fail(&startError{"golf-go: " + err.Error()})
		}
	}
	a := attempt{own: own, golf: own.golf}
	if !own.turns {
		a.turns = turns
	}
	if !own.chosen {
		a.golf = append([]string{"--every", every}, a.golf...)
	}
	r.takeFirst(r.once(a), a)
	r.over()
}

// seeds runs the test by some seeds, and then by more of them with goroutines that the schedule holds. In a test with a clock
// time passes in the last ones while goroutines run.
func (r *testRun) seeds() {
	own := r.words.own
	held, looseHeld, looseLate := own, own, own
	held.hold = true
	looseHeld.hold, looseHeld.loose = true, true
	looseLate.late, looseLate.loose = true, true
	list := append(seedsOf(own, tryTurns, plainSeeds), seedsOf(held, tryTurns, holdSeeds)...)
	if !own.loose && r.output(own).Clock {
		list = append(list, seedsOf(looseHeld, tryTurns, looseSeeds)...)
		list = append(list, seedsOf(looseLate, lateTurns, looseSeeds)...)
	}
	for _, a := range list {
		r.takeMore(r.once(a), a, r.command(a))
		if r.over() {
			return
		}
	}
}

// seedsOf are runs by the first seeds.
func seedsOf(own words, turns string, seeds int) []attempt {
	var list []attempt
	for seed := range seeds {
		list = append(list, attempt{own, turns, []string{"--every", every, "--schedule", "seed:" + strconv.Itoa(seed+1)}})
	}
	return list
}

// takeFirst keeps what the first run has shown.
func (r *testRun) takeFirst(o *outcome, a attempt) {
	if o == nil {
		return
	}
	r.count(o)
	r.keep(o, "")
	if o.kind != verdict.Refused {
		r.leaks(o.left, r.command(a))
	}
}

// takeMore keeps what another run has shown that the first one has not. A goroutine that is reported counts if the test does
// not fail in this run; again is the command that shows it. A failure of a test with a clock does not count while its goroutines
// are held or time passes while they run.
func (r *testRun) takeMore(o *outcome, a attempt, again string) {
	if o == nil {
		return
	}
	r.count(o)
	switch {
	case o.kind == verdict.Refused:
		r.leaveOut(o)
	case o.kind == verdict.Fail && o.clock && (a.own.loose || a.own.hold && !o.panicked):
	case o.kind == verdict.Fail, o.kind == verdict.Deadlock:
		r.keep(o, again)
	default:
		r.leaks(o.left, again)
	}
}

// leaveOut tells, once for a test, that a run was refused which does not decide how the test ends.
func (r *testRun) leaveOut(o *outcome) {
	if !r.leftOut {
		r.leftOut = true
		fmt.Fprintf(r.stderr, "golf-go: %s: a schedule is left out: %s\n", r.test.Name, strings.Join(o.reasons, "; "))
	}
}

// count counts a run that has come to its end.
func (r *testRun) count(o *outcome) {
	if o.kind != verdict.Stopped && o.kind != verdict.Refused {
		r.test.Tried.Schedules++
	}
}

// keep takes the end of a run as that of the test. again is the command that shows it, unless every run does.
func (r *testRun) keep(o *outcome, again string) {
	t := r.test
	t.Kind, t.Printed, t.Log, t.Reasons, t.Goroutines, t.Again = o.kind, o.printed, o.log, o.reasons, o.asleep, again
}

// leaks keeps goroutines that a run reports, those of the baseline apart.
func (r *testRun) leaks(list []verdict.Goroutine, again string) {
	t := r.test
	for _, g := range list {
		if r.known.Has(&g) {
			t.Known = verdict.Merge(t.Known, []verdict.Goroutine{g})
			continue
		}
		g.Again = again
		t.Goroutines = verdict.Merge(t.Goroutines, []verdict.Goroutine{g})
		if t.Kind < verdict.Leak {
			t.Kind = verdict.Leak
		}
	}
}
