// Package shown has what the run of a program shows, by Go or by golf-go, in a form in which the two can be compared.
package shown

import (
	"bytes"
	"fmt"
	"io"
	"strings"

	"golflower/lower"
)

// Shown is what a run shows.
type Shown struct {
	Out  string // standard output
	Errs string // standard error, without what tells of the end
	End  string // the first line of a panic or a fatal error, or the status
}

// ByGo returns what a run by Go shows.
func ByGo(out, errs string, status int) Shown {
	s := Shown{Out: out}
	var before []string
	for _, l := range strings.Split(errs, "\n") {
		if ends(l) {
			s.End, _, _ = strings.Cut(l, " [recovered")
			break
		}
		if strings.HasPrefix(l, "exit status ") || strings.HasPrefix(l, "goroutine ") {
			continue
		}
		before = append(before, l)
	}
	return s.ended(before, status)
}

// ends: the line tells how a program ends.
func ends(l string) bool {
	return strings.HasPrefix(l, "panic: ") || strings.HasPrefix(l, "fatal error: ")
}

// ended is what is shown with these lines of standard error, and with the status if nothing else tells of the end.
func (s Shown) ended(errs []string, status int) Shown {
	s.Errs = strings.TrimSpace(strings.Join(errs, "\n"))
	if s.End == "" {
		s.End = fmt.Sprint("status ", status)
	}
	return s
}

// ByGolfGo returns what a run by golf-go shows. A report is no end of the program.
func ByGolfGo(out, errs string, status int) Shown {
	s := Shown{Out: out}
	var before []string
	for _, l := range strings.Split(errs, "\n") {
		switch {
		case ends(l):
			s.End, _, _ = strings.Cut(l, " (goroutine ")
		case !OfGolfGo(l):
			before = append(before, l)
		}
	}
	if status == 1 && !strings.Contains(errs, "golf-go: os.Exit(1)") {
		status = 0
	}
	return s.ended(before, status)
}

// OfGolfGo: golf-go says the line, and not the program.
func OfGolfGo(l string) bool {
	return strings.HasPrefix(l, "collection ") || strings.HasPrefix(l, "goroutine ") || strings.HasPrefix(l, "golf-go: ")
}

// Lowered returns what a run of a lowered file by Go shows.
func Lowered(out, errs string, status int) (Shown, error) {
	var text, more bytes.Buffer
	d := &lower.Decoder{Out: &text, Err: &more}
	if err := d.Copy(strings.NewReader(out)); err != nil && err != io.EOF {
		return Shown{}, err
	}
	s := ByGo(text.String(), errs, status)
	s.End = d.PanicText(s.End)
	if d.Exit >= 0 {
		s.End = fmt.Sprint("status ", d.Exit)
	}
	s.Errs = strings.TrimSpace(more.String())
	return s, nil
}

// Difference names the first line that differs from what is wanted, with the one that another way gives. It is "" if
// nothing differs.
func Difference(want, got Shown, way string) string {
	for _, part := range []struct{ name, want, got string }{
		{"", want.Out, got.Out}, {" of standard error", want.Errs, got.Errs}, {" of the end", want.End, got.End},
	} {
		a, b := strings.Split(part.want, "\n"), strings.Split(part.got, "\n")
		for i := range max(len(a), len(b)) {
			if x, y := at(a, i), at(b, i); x != y {
				return fmt.Sprintf("line %d%s: `%.70s`, %s `%.90s`", i+1, part.name, x, way, y)
			}
		}
	}
	return ""
}

func at(list []string, i int) string {
	if i < len(list) {
		return list[i]
	}
	return ""
}
