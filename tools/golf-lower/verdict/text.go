package verdict

import (
	"fmt"
	"io"
	"strings"
	"time"
)

// Text writes packages as the command go test does.
type Text struct {
	Out          io.Writer
	Verbose      bool // also the tests that are ok
	AllowRefused bool
}

// Package writes the tests of a package and its line.
func (x *Text) Package(p *Package) {
	for _, t := range p.Tests {
		if x.Verbose || t.Kind > Skip {
			io.WriteString(x.Out, x.test(t))
		}
	}
	for _, l := range indented(p.Refused) {
		fmt.Fprintf(x.Out, "refused: %s\n", strings.TrimSpace(l))
	}
	fmt.Fprintln(x.Out, packageLine(p, x.AllowRefused))
}

// packageLine is the line of a package.
func packageLine(p *Package, allowRefused bool) string {
	if !p.HasTests && p.Refused == "" {
		return fmt.Sprintf("?   \t%s\t[no test files]", p.Path)
	}
	if len(p.Tests) == 0 && p.Refused == "" {
		return fmt.Sprintf("ok  \t%s\t%ss\t[no tests to run]", p.Path, seconds(p.Elapsed))
	}
	word := "ok  "
	if Status([]*Package{p}, allowRefused) != 0 {
		word = "FAIL"
	}
	return fmt.Sprintf("%s\t%s\t%s\t[%s]", word, p.Path, seconds(p.Elapsed)+"s", counts([]*Package{p}))
}

// heads are the words that begin the line of a test.
var heads = map[Kind]string{OK: "PASS", Skip: "SKIP", Fail: "FAIL", Leak: "LEAK", Deadlock: "DEADLOCK", Refused: "REFUSED", Stopped: "STOPPED"}

// test is what is written of a test.
func (x *Text) test(t *Test) string {
	var sb strings.Builder
	if x.Verbose {
		fmt.Fprintf(&sb, "=== RUN   %s\n", t.Name)
	}
	sb.WriteString(ended(t.Printed))
	sb.WriteString(t.head() + "\n")
	sb.WriteString(ended(t.Log))
	for _, l := range t.told(x.Verbose) {
		sb.WriteString("    " + l + "\n")
	}
	return sb.String()
}

// head is the first line of a test.
func (t *Test) head() string {
	return fmt.Sprintf("--- %s: %s (%ss)", heads[t.Kind], t.Name, seconds(t.Elapsed))
}

// told are the lines below the log of a test: why it ended so, and its goroutines.
func (t *Test) told(verbose bool) []string {
	var list []string
	for _, r := range t.Reasons {
		list = append(list, strings.Split(r, "\n")...)
	}
	again := t.Again
	for i, g := range t.Goroutines {
		list = append(list, g.lines()...)
		if g.Again != "" {
			again = g.Again
		}
		if i+1 == len(t.Goroutines) || t.Goroutines[i+1].Again != g.Again {
			list, again = shownBy(list, again), ""
		}
	}
	list = shownBy(list, again)
	for _, g := range t.Known {
		list = append(list, "known: "+g.Key())
	}
	if verbose && t.Kind == OK && t.Tried.Schedules > 0 {
		list = append(list, t.none()+" "+t.Tried.String())
	}
	return list
}

// none says that nothing is left to tell.
func (t *Test) none() string {
	if len(t.Known) > 0 {
		return "no other leak"
	}
	return "no leak"
}

// shownBy adds the command that shows again what the lines tell.
func shownBy(list []string, again string) []string {
	if again == "" {
		return list
	}
	return append(list, "shown again by: "+again)
}

// Summary is the last line: how many tests ended in each way, and what was tried.
func Summary(packages []*Package) string {
	total := 0
	var order []string
	tried := map[string]int{}
	known := 0
	for _, p := range packages {
		total += len(p.Tests)
		for _, t := range p.Tests {
			known += len(t.Known)
			if t.Kind == OK && t.Tried.Schedules > 0 {
				if s := t.Tried.String(); tried[s] == 0 {
					order = append(order, s)
				}
				tried[t.Tried.String()]++
			}
		}
	}
	if total == 0 {
		return strings.TrimSuffix("golf-go: no tests, "+counts(packages), ", ")
	}
	s := fmt.Sprintf("golf-go: %s: %s", plural(total, "test"), counts(packages))
	if known > 0 {
		s += "; " + plural(known, "leak") + " of the baseline"
	}
	return s + leakless(order, tried)
}

// leakless says by what no leak was found.
func leakless(order []string, tried map[string]int) string {
	switch len(order) {
	case 0:
		return ""
	case 1:
		return "; no leak in " + plural(tried[order[0]], "test") + " " + order[0]
	}
	var parts []string
	for _, s := range order {
		parts = append(parts, fmt.Sprintf("%d %s", tried[s], s))
	}
	return "; no leak in tests: " + strings.Join(parts, ", ")
}

func plural(n int, what string) string {
	if n == 1 {
		return "1 " + what
	}
	return fmt.Sprintf("%d %ss", n, what)
}

// seconds has the form that go test writes.
func seconds(d time.Duration) string { return fmt.Sprintf("%.2f", d.Seconds()) }

// ended is a text whose last line has an end.
func ended(s string) string {
	if s != "" && !strings.HasSuffix(s, "\n") {
		s += "\n"
	}
	return s
}

// indented are the lines of a text, none if it is empty.
func indented(s string) []string {
	if s == "" {
		return nil
	}
	return strings.Split(strings.TrimSuffix(s, "\n"), "\n")
}
