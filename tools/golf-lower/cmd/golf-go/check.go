package main

import (
	"errors"
	"fmt"
	"io"
	"sort"
	"strings"

	"golflower/load"
	"golflower/lower"
)

// check lowers the main packages that the words name, and each test, and runs nothing. A line for each package counts what
// can be run. All that is refused is told by its reason, with the places and with what would reach them.
func check(w words, stdout, stderr io.Writer) int {
	units, err := load.Modules(".", w.paths, true)
	if err != nil {
		fmt.Fprintln(stderr, err)
		return noRead
	}
	status := 0
	all := &refusals{places: map[string][]string{}, reached: map[string][]string{}}
	for _, u := range units {
		good, total := checkUnit(w, u, all)
		fmt.Fprintf(stdout, "%s: %d of %d accepted\n", u.Path, good, total)
		if good < total {
			status = refused
		}
	}
	all.write(stderr)
	return status
}

// refusals are what is refused of all units, with those whose run would reach it.
type refusals struct {
	reasons []string // in the order in which they are found
	places  map[string][]string
	reached map[string][]string // by reason and place
}

// add notes what is refused of one main or test.
func (r *refusals) add(who string, list []*load.Error) {
	for _, e := range list {
		msg, _, _ := strings.Cut(e.Msg, "\n")
		at := "no place"
		if e.Pos.Line > 0 {
			at = e.Pos.String()
		}
		if len(r.places[msg]) == 0 {
			r.reasons = append(r.reasons, msg)
		}
		key := at + " " + msg
		if len(r.reached[key]) == 0 {
			r.places[msg] = append(r.places[msg], at)
		}
		r.reached[key] = append(r.reached[key], who)
	}
}

// write writes each reason with its places, the most frequent reason first.
func (r *refusals) write(to io.Writer) {
	sort.SliceStable(r.reasons, func(i, j int) bool { return len(r.places[r.reasons[i]]) > len(r.places[r.reasons[j]]) })
	for _, reason := range r.reasons {
		fmt.Fprintf(to, "refused: %s\n", reason)
		for _, at := range r.places[reason] {
			who := r.reached[at+" "+reason]
			more := ""
			if len(who) > 1 {
				more = fmt.Sprintf(" and %d more", len(who)-1)
			}
			fmt.Fprintf(to, "\t%s, reached from %s%s\n", at, who[0], more)
		}
		for _, i := range instead {
			if strings.HasPrefix(reason, i.begin) {
				fmt.Fprintf(to, "\tinstead: %s\n", i.text)
				break
			}
		}
	}
}

// instead says what could be written in place of what is refused.
var instead = []struct{ begin, text string }{
	{"function literal in the header", "give the literal to a variable before the loop"},
	{"address of an element", "take the address of a variable, or let the elements be structs"},
	{"copy of a sync.", "hand on a pointer to the struct"},
	{"assignment to a sync.", "let the variable be a pointer, or a field of a struct"},
	{"cap of a channel", "keep the size in a variable"},
	{"defer in a range over", "collect the values first, and range over the slice"},
	{"sort.Slice of a value", "give the slice its type before it is sorted"},
	{"type complex", "two floats"},
	{"the verb %#v", "%+v, or a method String"},
	{"the verb %p", "a name or a number that the program gives"},
	{"function (*testing.T).TempDir", "test what reads and writes behind an io.Reader or io.Writer, and files in a test of their own"},
	{"function (*testing.T).", "hand on what is set as a parameter"},
	{"runtime.SetFinalizer", "a method Close that the owner calls"},
	{"os.", "an io.Reader or io.Writer as a parameter: there are no files"},
	{"reflect.", "a method of an interface, or type parameters: there is no reflection beside DeepEqual"},
	{"so long a literal", "several shorter literals"},
	{"type parameter", "a parameter of an interface type"},
}

// checkUnit counts what of a package is accepted.
func checkUnit(w words, u *load.Unit, all *refusals) (good, total int) {
	tell := func(what string, list []*load.Error) {
		total++
		if list == nil {
			good++
		}
		all.add(what, list)
	}
	var l *load.Loader
	err := u.Err
	if err == nil {
		l, err = load.New(u.Program)
	}
	if err != nil {
		tell(u.Path, []*load.Error{asError(err)})
		return good, total
	}
	if u.Main {
		tell(u.Path, lower.Refusals(l, w.options()))
	}
	for _, name := range u.Tests {
		opt := w.options()
		opt.Tests, opt.Only = true, name
		tell(name, lower.Refusals(l, opt))
	}
	return good, total
}

// asError is an error with its place, if it has one.
func asError(err error) *load.Error {
	var e *load.Error
	if errors.As(err, &e) {
		return e
	}
	return &load.Error{Msg: err.Error()}
}
