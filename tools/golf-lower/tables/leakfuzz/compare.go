package main

import (
	"fmt"
	"slices"
	"strings"
)

// How often a program is run by Go: as it is, to see what golf must find; and then, for what golf reports beyond it, as it
// is and with goroutines that wait now and then.
const (
	plainRuns = 20
	allRuns   = 200
	slowRuns  = 1000
)

// outcome is what became of one program.
type outcome struct {
	seed   int64
	err    error
	byGo   leaks // in the first runs
	byGolf leaks
	beside []leak // golf reports them, and Go's profile never finds them
	missed []leak // Go's profile finds them, and golf does not report them
	tried  int    // ways by golf
}

// compare runs a program by golf and by Go.
func compare(file string, seed int64) *outcome {
	o := &outcome{seed: seed, byGo: leaks{}, byGolf: leaks{}}
	if o.err = byGo(file, seed, plainRuns, "plain", o.byGo); o.err != nil {
		return o
	}
	cheap, more := ways()
	low := newLowered(seed)
	for i, w := range append(cheap, more...) {
		if i >= len(cheap) && len(o.notYet()) == 0 {
			break
		}
		o.tried++
		if o.err = low.run(w, o.byGolf); o.err != nil {
			return o
		}
	}
	o.missed = o.notYet()
	o.err = o.confirm(file)
	return o
}

// notYet are the leaks that Go's profile has found, and golf has not.
func (o *outcome) notYet() []leak { return without(o.byGo, o.byGolf) }

// confirm looks by more runs of Go for what golf has reported beyond the first ones.
func (o *outcome) confirm(file string) error {
	known := leaks{}
	for l, n := range o.byGo {
		known[l] = n
	}
	for _, more := range []struct {
		n    int
		pace string
	}{{allRuns, "plain"}, {allRuns, "slow"}, {slowRuns, "slow"}, {slowRuns, "slow"}} {
		if len(without(o.byGolf, known)) == 0 {
			break
		}
		if err := byGo(file, o.seed, more.n, more.pace, known); err != nil {
			return err
		}
	}
	o.beside = without(o.byGolf, known)
	return nil
}

// without are the leaks of one list that another one does not have.
func without(list, other leaks) []leak {
	var left []leak
	for l := range list {
		if other[l] == 0 {
			left = append(left, l)
		}
	}
	slices.SortFunc(left, func(a, b leak) int { return (a.wait-b.wait)*10000 + a.start - b.start })
	return left
}

// wrong says what is wrong with a program, "" if nothing is.
func (o *outcome) wrong() string {
	var list []string
	if o.err != nil {
		list = append(list, o.err.Error())
	}
	for _, l := range o.beside {
		list = append(list, fmt.Sprintf("golf reports a goroutine that Go's profile never finds: %s", l))
	}
	for _, l := range o.missed {
		list = append(list, fmt.Sprintf("Go's profile finds a goroutine in %d of %d runs that golf does not report: %s", o.byGo[l], plainRuns, l))
	}
	return strings.Join(list, "; ")
}
