package verdict

import (
	"encoding/json"
	"io"
	"strings"
	"time"
)

// JSON writes packages as go test -json does. The last event of a test has two fields more: Verdict, as LEAK, and Leaks.
type JSON struct {
	Out          io.Writer
	Now          func() time.Time
	AllowRefused bool
}

// event is an event of go test -json.
type event struct {
	Time    *time.Time `json:",omitempty"`
	Action  string
	Package string      `json:",omitempty"`
	Test    string      `json:",omitempty"`
	Elapsed *float64    `json:",omitempty"`
	Output  string      `json:",omitempty"`
	Verdict string      `json:",omitempty"`
	Leaks   []Goroutine `json:",omitempty"`
}

// Package writes the events of a package.
func (j *JSON) Package(p *Package) {
	j.put(event{Action: "start", Package: p.Path})
	for _, t := range p.Tests {
		j.test(p, t)
	}
	for _, l := range indented(p.Refused) {
		j.put(event{Action: "output", Package: p.Path, Output: "refused: " + strings.TrimSpace(l) + "\n"})
	}
	action := "pass"
	switch {
	case !p.HasTests && p.Refused == "":
		action = "skip"
	case Status([]*Package{p}, j.AllowRefused) != 0:
		action = "fail"
		j.put(event{Action: "output", Package: p.Path, Output: "FAIL\n"})
	default:
		j.put(event{Action: "output", Package: p.Path, Output: "PASS\n"})
	}
	j.put(event{Action: "output", Package: p.Path, Output: packageLine(p, j.AllowRefused) + "\n"})
	j.put(event{Action: action, Package: p.Path, Elapsed: elapsed(p.Elapsed)})
}

// actions are the last events of tests, by how they end. What is refused is skipped, for programs that know these words alone.
var actions = map[Kind]string{OK: "pass", Skip: "skip", Refused: "skip", Stopped: "fail", Leak: "fail", Deadlock: "fail", Fail: "fail"}

// test writes the events of a test. Its parts have events of their own.
func (j *JSON) test(p *Package, t *Test) {
	say := func(test, text string) {
		j.put(event{Action: "output", Package: p.Path, Test: test, Output: text + "\n"})
	}
	j.put(event{Action: "run", Package: p.Path, Test: t.Name})
	say(t.Name, "=== RUN   "+t.Name)
	for _, l := range indented(t.Printed) {
		say(t.Name, l)
	}
	all := parts(t)
	for _, s := range all[1:] {
		j.put(event{Action: "run", Package: p.Path, Test: s.name})
		say(s.name, "=== RUN   "+s.name)
	}
	for _, s := range all[1:] {
		for _, l := range s.lines {
			say(s.name, l)
		}
		j.put(event{Action: strings.ToLower(s.word), Package: p.Path, Test: s.name, Elapsed: new(float64)})
	}
	say(t.Name, t.head())
	for _, l := range all[0].lines {
		say(t.Name, l)
	}
	for _, l := range t.told(false) {
		say(t.Name, "    "+l)
	}
	e := event{Action: actions[t.Kind], Package: p.Path, Test: t.Name, Elapsed: elapsed(t.Elapsed), Verdict: t.Kind.String()}
	if t.Kind == Leak {
		e.Leaks = t.Goroutines
	}
	j.put(e)
}

// put writes an event. What cannot be written is told at the end, by the writer.
func (j *JSON) put(e event) {
	now := j.Now()
	e.Time = &now
	text, err := json.Marshal(e)
	if err == nil {
		j.Out.Write(append(text, '\n'))
	}
}

// elapsed has two digits, as that of go test.
func elapsed(d time.Duration) *float64 {
	s := float64(d.Round(10*time.Millisecond)) / float64(time.Second)
	return &s
}
