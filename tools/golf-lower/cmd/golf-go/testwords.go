package main

import (
	"flag"
	"fmt"
	"io"
	"regexp"
	"runtime"
	"strconv"
	"strings"
	"time"
)

// testWords are the words of golf-go test.
type testWords struct {
	patterns     []string
	run, skip    *regexp.Regexp
	verbose      bool
	asJSON       bool
	short        bool
	allowRefused bool
	update       bool
	sarif        string
	junit        string
	baseline     string
	search       time.Duration
	timeout      time.Duration
	states       int
	jobs         int
	own          words // those of the lowering, and those of golf run
	wrong        string
}

// parseTest reads the words behind test. They may stand before and behind the packages.
func parseTest(args []string) *testWords {
	w := &testWords{}
	set := w.flags()
	for len(args) > 0 && w.wrong == "" {
		if !strings.HasPrefix(args[0], "-") {
			w.patterns = append(w.patterns, args[0])
			args = args[1:]
			continue
		}
		if rest, ok := w.ofRun(args); ok {
			args = rest
			continue
		}
		n := wordsOfFlag(set, args)
		if err := set.Parse(args[:n]); err != nil {
			w.wrong = wrongFlag(err)
			return w
		}
		args = args[n:]
	}
	if len(w.patterns) == 0 {
		w.patterns = []string{"."}
	}
	w.check()
	return w
}

// flags are the words of golf-go test itself. Each has one dash or two, as those of go test.
func (w *testWords) flags() *flag.FlagSet {
	set := flag.NewFlagSet("test", flag.ContinueOnError)
	set.SetOutput(io.Discard)
	pattern := func(to **regexp.Regexp) func(string) error {
		return func(s string) (err error) {
			if strings.Contains(s, "/") {
				return fmt.Errorf("parts of tests cannot be chosen")
			}
			*to, err = regexp.Compile(s)
			return err
		}
	}
	set.Func("run", "", pattern(&w.run))
	set.Func("skip", "", pattern(&w.skip))
	set.BoolVar(&w.verbose, "v", false, "")
	set.BoolVar(&w.asJSON, "json", false, "")
	set.BoolVar(&w.short, "short", false, "")
	set.BoolVar(&w.allowRefused, "allow-refused", false, "")
	set.BoolVar(&w.update, "update", false, "")
	set.StringVar(&w.sarif, "sarif", "", "")
	set.StringVar(&w.junit, "junit", "", "")
	set.StringVar(&w.baseline, "baseline", "", "")
	set.DurationVar(&w.search, "search", 5*time.Second, "")
	set.DurationVar(&w.timeout, "timeout", 10*time.Minute, "")
	set.IntVar(&w.states, "states", 5000, "")
	set.IntVar(&w.jobs, "p", runtime.GOMAXPROCS(0), "")
	return set
}

// wordsOfFlag is how many of the words the first one takes with its value.
func wordsOfFlag(set *flag.FlagSet, args []string) int {
	name, _, whole := strings.Cut(strings.TrimLeft(args[0], "-"), "=")
	f := set.Lookup(name)
	if f == nil || whole {
		return 1
	}
	if b, ok := f.Value.(interface{ IsBoolFlag() bool }); ok && b.IsBoolFlag() {
		return 1
	}
	return min(2, len(args))
}

// wrongFlag is what is wrong with a word, in the words of golf-go.
func wrongFlag(err error) string {
	if name, ok := strings.CutPrefix(err.Error(), "flag provided but not defined: "); ok {
		return "no word of golf-go test: " + name
	}
	if name, ok := strings.CutPrefix(err.Error(), "flag needs an argument: "); ok {
		return "no value after " + name
	}
	return err.Error()
}

// ofRun takes a word of golf run or of the lowering, with its value. It says whether the first word is one.
func (w *testWords) ofRun(args []string) ([]string, bool) {
	name, _, whole := strings.Cut("--"+strings.TrimLeft(args[0], "-"), "=")
	switch name {
	case "--late", "--pause", "--hold":
		return w.own.take(append([]string{name}, args[1:]...)), true
	case "--clock", "--schedule", "--every", "--turns":
		rest := w.own.take(append([]string{"--" + strings.TrimLeft(args[0], "-")}, args[1:]...))
		if name != "--clock" && !whole && len(rest) > 0 {
			w.own.golf = append(w.own.golf, rest[0])
			rest = rest[1:]
		}
		return rest, true
	}
	return args, false
}

// check looks at the values.
func (w *testWords) check() {
	switch {
	case w.wrong != "":
	case w.wrongOwn() != "":
		w.wrong = w.wrongOwn()
	case w.states < 1 || w.states > 1000000:
		w.wrong = "no value of -states: " + strconv.Itoa(w.states)
	case w.search < 0 || w.search > 24*time.Hour:
		w.wrong = fmt.Sprintf("no value of -search: %v", w.search)
	case w.timeout <= 0:
		w.wrong = fmt.Sprintf("no value of -timeout: %v", w.timeout)
	case w.jobs < 1:
		w.wrong = "no value of -p: " + strconv.Itoa(w.jobs)
	case w.update && w.baseline == "":
		w.wrong = "-update writes the file that -baseline names, and none is named"
	}
}

// wrongOwn is what is wrong with the words of the lowering and of golf run, "" if they are right.
func (w *testWords) wrongOwn() string {
	if w.own.wrong != "" || len(w.own.golf) == 0 {
		return w.own.wrong
	}
	return faultOf("run", w.own.golf)
}

// chosenOf are the tests of a package that -run and -skip choose.
func (w *testWords) chosenOf(names []string) []string {
	var list []string
	for _, n := range names {
		if (w.run == nil || w.run.MatchString(n)) && (w.skip == nil || !w.skip.MatchString(n)) {
			list = append(list, n)
		}
	}
	return list
}
