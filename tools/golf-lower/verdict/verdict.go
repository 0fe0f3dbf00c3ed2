// Package verdict has what became of the tests of packages. It writes this as text, as the events of go test -json, as SARIF
// and as JUnit.
package verdict

import (
	"fmt"
	"path/filepath"
	"strings"
	"time"
)

// Kind says how a test ended.
type Kind int

// The kinds, a worse one after a better one where several fit.
const (
	OK Kind = iota
	Skip
	Refused  // its code, or what it did, is not supported
	Stopped  // its turns or the time are over
	Leak     // a goroutine is reported
	Deadlock // all goroutines are asleep
	Fail     // it failed or panicked
)

var kindNames = [...]string{"ok", "SKIP", "refused", "stopped", "LEAK", "DEADLOCK", "FAIL"}

func (k Kind) String() string { return kindNames[k] }

// Place is a place in the user's files. Without a line it is generated code, and Function is its name.
type Place struct {
	File     string `json:",omitempty"`
	Line     int    `json:",omitempty"`
	Column   int    `json:",omitempty"`
	Function string `json:",omitempty"`
}

func (p Place) String() string {
	if p.Line == 0 {
		return "generated code of " + p.Function
	}
	s := fmt.Sprintf("%s:%d:%d", p.File, p.Line, p.Column)
	if p.Function != "" {
		s += " in " + p.Function
	}
	return s
}

// at is the place behind a word such as started.
func (p Place) at() string {
	if p.Line == 0 {
		return "in " + p.Function
	}
	return "at " + p.String()
}

// slashed is the name of the file with slashes, whatever the system has.
func (p Place) slashed() string { return filepath.ToSlash(p.File) }

// Thing is something that a goroutine waits on.
type Thing struct {
	Name string  // as the statement names it
	Made []Place `json:",omitempty"` // where it was made: no place if that is not known
}

func (t Thing) String() string {
	if len(t.Made) == 0 {
		return t.Name
	}
	var made []string
	for _, p := range t.Made {
		made = append(made, p.String())
	}
	return fmt.Sprintf("%s (made at %s)", t.Name, strings.Join(made, " or "))
}

// Goroutine is one that is blocked.
type Goroutine struct {
	Number  int
	Wait    string // how it waits, as chan send
	At      Place
	Started *Place  `json:",omitempty"` // where it was started; nil for goroutine 1
	On      []Thing `json:",omitempty"` // all that a select waits on, or what another statement may wait on
	Holder  int     `json:",omitempty"` // the goroutine that has locked what it waits for
	Locked  *Place  `json:",omitempty"` // and where
	More    int     `json:",omitempty"` // how many others wait at the same place and were started at the same place
	Again   string  `json:",omitempty"` // the command that shows it again
}

// same: both wait at one place and were started at one place.
func (g *Goroutine) same(o *Goroutine) bool {
	return g.Wait == o.Wait && g.At == o.At && (g.Started == nil) == (o.Started == nil) &&
		(g.Started == nil || *g.Started == *o.Started)
}

// lines tell of the goroutine.
func (g *Goroutine) lines() []string {
	list := g.parts("waits on ")
	switch g.More {
	case 0:
	case 1:
		list = append(list, "and 1 more at the same places")
	default:
		list = append(list, fmt.Sprintf("and %d more at the same places", g.More))
	}
	for i := range list[1:] {
		list[i+1] = "    " + list[i+1]
	}
	return list
}

// Line tells of the goroutine in one line.
func (g *Goroutine) Line() string { return strings.Join(g.parts("on "), ", ") }

// parts tell how and where the goroutine waits, where it was started, on what it waits, and who has locked that.
func (g *Goroutine) parts(on string) []string {
	list := []string{fmt.Sprintf("goroutine %d: %s %s", g.Number, g.Wait, g.At.at())}
	if g.Started != nil {
		list = append(list, "started "+g.Started.at())
	}
	if len(g.On) > 0 {
		list = append(list, on+g.Things())
	}
	switch {
	case g.Locked == nil:
	case g.Holder == g.Number:
		list = append(list, "locked by itself "+g.Locked.at())
	default:
		list = append(list, fmt.Sprintf("locked by goroutine %d %s", g.Holder, g.Locked.at()))
	}
	return list
}

// Things names what the goroutine waits on.
func (g *Goroutine) Things() string {
	between := " or "
	if strings.HasPrefix(g.Wait, "select") {
		between = " and "
	}
	var names []string
	for _, t := range g.On {
		names = append(names, t.String())
	}
	return strings.Join(names, between)
}

// Merge adds goroutines to a list. Those that wait at the same place and were started at the same place are one.
func Merge(list, more []Goroutine) []Goroutine {
	for _, g := range more {
		found := false
		for i := range list {
			if list[i].same(&g) {
				found = true
				if list[i].Again == g.Again {
					list[i].More++
				}
				break
			}
		}
		if !found {
			list = append(list, g)
		}
	}
	return list
}

// Tried is what was tried for a test.
type Tried struct {
	Schedules   int
	Preemptions int           // those of a search that came to its end; -1 without one
	States      int           // those after which a search was stopped
	Time        time.Duration // after which it was stopped
	Every       bool          // every schedule of the lowered file
	Alone       bool          // the test starts no goroutine, so that other schedules do the same
	Loose       bool          // time passed while goroutines ran in the search
}

func (t Tried) String() string {
	loose := ""
	if t.Loose {
		loose = " (--clock loose)"
	}
	if t.Every {
		return "by every schedule of the lowered file" + loose
	}
	if t.Alone {
		return "by 1 schedule, since no goroutine is started"
	}
	s := fmt.Sprintf("by %d schedules", t.Schedules)
	if t.Schedules == 1 {
		s = "by 1 schedule"
	}
	switch {
	case t.States > 0:
		s += fmt.Sprintf(" and a search of %d states", t.States)
	case t.Time > 0:
		s += fmt.Sprintf(" and a search of %v", t.Time)
	case t.Preemptions == 1:
		s += " and a search to 1 preemption"
	case t.Preemptions >= 0:
		s += fmt.Sprintf(" and a search to %d preemptions", t.Preemptions)
	default:
		return s
	}
	return s + loose
}

// Test is what became of a test.
type Test struct {
	Name       string
	Kind       Kind
	Elapsed    time.Duration
	Printed    string      // what it wrote to standard output
	Log        string      // what its methods told, with its parts
	Reasons    []string    // of a refusal or a panic; where it was stopped
	Goroutines []Goroutine // those that are reported, or that are asleep
	Known      []Goroutine // those of the baseline
	Again      string      // the command that shows an end again that is not that of the first run
	Tried      Tried
}

// Package is what became of the tests of a package.
type Package struct {
	Path     string
	HasTests bool    // there are tests, which may not be chosen
	Tests    []*Test // those that are chosen
	Elapsed  time.Duration
	Refused  string // why the package cannot be loaded
}

// count is how many tests ended so. A package that cannot be loaded counts as one that is refused.
func (p *Package) count(k Kind) int {
	n := 0
	if p.Refused != "" && k == Refused {
		n++
	}
	for _, t := range p.Tests {
		if t.Kind == k {
			n++
		}
	}
	return n
}

// statuses are those of golf-go test, the first that fits.
var statuses = []struct {
	kind   Kind
	status int
}{{Fail, 2}, {Deadlock, 2}, {Leak, 1}, {Stopped, 3}, {Refused, 4}}

// Status is the status of golf-go test: 2 if a test failed, panicked or was in a deadlock, 1 if a goroutine is reported, 3 if a
// test was stopped, and 4 if something was refused, unless that is allowed.
func Status(packages []*Package, allowRefused bool) int {
	for _, s := range statuses {
		if s.kind == Refused && allowRefused {
			continue
		}
		for _, p := range packages {
			if p.count(s.kind) > 0 {
				return s.status
			}
		}
	}
	return 0
}

// counts tells how many tests ended in each way.
func counts(packages []*Package) string {
	var parts []string
	for _, k := range []Kind{OK, Skip, Fail, Deadlock, Leak, Stopped, Refused} {
		n := 0
		for _, p := range packages {
			n += p.count(k)
		}
		if n > 0 {
			parts = append(parts, fmt.Sprintf("%d %v", n, k))
		}
	}
	return strings.Join(parts, ", ")
}
