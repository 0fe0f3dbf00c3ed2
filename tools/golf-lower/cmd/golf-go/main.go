// Command golf-go runs Go programs by golf: it lowers them, runs golf on what comes out, and writes output, reports and
// panics with the lines and functions of the user's files.
//
//	golf-go FILE.go .. [words]             runs the files of one package
//	golf-go run PACKAGE [words]            runs a package as the command go finds it
//	golf-go explore PACKAGE [words]        looks at every schedule, by golf-explore all
//	golf-go search PACKAGE [words]         looks for a schedule that shows a bug, by golf-explore search
//	golf-go page PACKAGE [words] > PAGE    writes the page of a run
//	golf-go test PACKAGES [words]          runs each test alone, and looks for goroutines that it leaves
//	golf-go check PACKAGES                 lowers the packages and their tests, and runs nothing
//	golf-go validate PACKAGE [words]       says whether a program does by golf what it does by Go; also golf-go -validate
//
//	golf-go --help, golf-go WORD --help    shows the words
//	golf-go --version                      shows the release
//
// Words are --late, --pause, --hold, --clock loose, and the words of the program that is run. The programs are $GOLF, $GOLF_EXPLORE
// and $GOLF_PAGE, or golf, golf-explore and golf-page beside the executable, or those on the path. $GOLF_LOWERED names a file
// for the lowered text.
package main

import (
	"context"
	"fmt"
	"io"
	"os"
	"os/signal"
	"runtime/debug"
	"slices"
	"strings"
	"syscall"

	"golflower/load"
	"golflower/lower"
)

// every is after how many turns a collection is added, if the words do not say it.
const every = "10000"

// turns are the most turns, if the words do not say it: a lowered file takes more of them than it looks.
const turns = "10000000"

// The statuses that are not those of golf run.
const (
	refused = 4
	usage   = 5
	noRead  = 6
	noWrite = 7
)

func main() {
	debug.SetGCPercent(400) // a lowering is short
	ctx, stop := signal.NotifyContext(context.Background(), os.Interrupt, syscall.SIGTERM, syscall.SIGHUP)
	defer stop()
	os.Exit(run(ctx, os.Args[1:], os.Stdout, os.Stderr))
}

// modes are the first words, beside files.
var modes = []string{"run", "test", "explore", "search", "page", "check", "validate"}

// words are the words of the command line.
type words struct {
	mode    string // the first word, "" for files alone
	paths   []string
	late    bool
	pause   bool
	hold    bool
	loose   bool
	wrong   string   // what is wrong with the words
	golf    []string // those of the program that is run
	chosen  bool     // --every or --schedule is there
	threads bool
	turns   bool
}

func parseWords(args []string) words {
	var w words
	if len(args) > 0 && strings.TrimLeft(args[0], "-") == "validate" {
		args = append([]string{"validate"}, args[1:]...)
	}
	if len(args) > 0 && slices.Contains(modes, args[0]) {
		w.mode = args[0]
		args = args[1:]
	}
	for len(args) > 0 && w.isPath(args[0]) {
		w.paths = append(w.paths, args[0])
		args = args[1:]
	}
	if len(w.paths) == 0 {
		w.wrong = "no file and no package is named"
		if len(args) > 0 && !strings.HasPrefix(args[0], "--") {
			w.wrong = "no word of golf-go, no file and no folder: " + args[0]
		}
	}
	for len(args) > 0 {
		args = w.take(args)
	}
	if w.mode == "check" && len(w.golf) > 0 {
		w.wrong = wrongWord("check", w.golf)
	}
	return w
}

// take takes the next word, with its value, and returns those after it.
func (w *words) take(args []string) []string {
	word := args[0]
	name, value, whole := strings.Cut(word, "=")
	args = args[1:]
	switch {
	case word == "--late":
		w.late = true
		return args
	case word == "--pause":
		w.pause = true
		return args
	case word == "--hold":
		w.hold = true
		return args
	case name == "--clock" && !whole && len(args) == 0:
		w.wrong = "no value after --clock"
		return args
	case name == "--clock":
		if !whole {
			value, args = args[0], args[1:]
		}
		w.clock(value)
		return args
	case name == "--every", name == "--schedule":
		w.chosen = true
	case name == "--threads":
		w.threads = true
	case name == "--turns":
		w.turns = true
	}
	w.golf = append(w.golf, word)
	return args
}

// clock takes the word after --clock.
func (w *words) clock(value string) {
	switch value {
	case "loose":
		w.loose = true
	case "strict":
	default:
		w.wrong = fmt.Sprintf("--clock %s: the clocks are strict, which is the default, and loose", value)
	}
}

// isPath: the word names files. Behind the name of a mode each word does that has no dashes, up to the answer of
// golf-explore that page takes.
func (w words) isPath(s string) bool {
	if strings.HasSuffix(s, ".go") {
		return true
	}
	if w.mode != "" {
		return !strings.HasPrefix(s, "-") && !strings.HasSuffix(s, ":") && !strings.Contains(s, ": ")
	}
	info, err := os.Stat(s)
	return err == nil && info.IsDir()
}

// line is the command line of golf run.
func (w words) line() []string {
	line := []string{"run"}
	if !w.threads {
		if !w.turns {
			line = append(line, "--turns", turns)
		}
		if !w.chosen {
			line = append(line, "--every", every)
		}
	}
	return append(line, w.golf...)
}

func (w words) options() lower.Options {
	loose := w.loose || w.mode == "explore" || w.mode == "search"
	return lower.Options{Collect: true, Late: w.late, Pause: w.pause, Hold: w.hold, Loose: loose}
}

func run(ctx context.Context, args []string, stdout, stderr io.Writer) int {
	if len(args) > 0 && args[0] == "test" && !slices.Contains(args, "--help") {
		return test(ctx, args[1:], stdout, stderr)
	}
	w := parseWords(args)
	switch {
	case slices.Contains(args, "--help"):
		return put(help(w.mode), stdout, stderr)
	case slices.Equal(args, []string{"--version"}):
		return version(stdout, stderr)
	case w.wrong != "":
		fmt.Fprintf(stderr, "golf-go: %s (golf-go --help shows the words)\n", w.wrong)
		return usage
	}
	if w.mode == "check" {
		return check(w, stdout, stderr)
	}
	program, opt, status := w.program(stderr)
	if status != 0 {
		return status
	}
	if w.mode == "validate" && opt.Tests {
		fmt.Fprintln(stderr, "golf-go: validate takes programs, and no tests: go test and golf-go FILE_test.go say how a test ends")
		return usage
	}
	low, err := lower.Lower(program, opt)
	if err != nil {
		fmt.Fprintf(stderr, "refused: %v\n", err)
		return refused
	}
	if f := os.Getenv("GOLF_LOWERED"); f != "" {
		if err := os.WriteFile(f, []byte(low.Text), 0o666); err != nil {
			fmt.Fprintln(stderr, err)
			return noWrite
		}
	}
	switch w.mode {
	case "explore":
		return explore(ctx, "all", w, low, stdout, stderr)
	case "search":
		return explore(ctx, "search", w, low, stdout, stderr)
	case "page":
		return page(ctx, w, args, program.Sources(), low, stdout, stderr)
	case "validate":
		return validate(ctx, w, low, stdout, stderr)
	}
	return execute(ctx, w, low, opt.Tests, stdout, stderr)
}

// program finds what is run. A status other than 0 says that there is nothing, and why has been told.
func (w words) program(stderr io.Writer) (*load.Program, lower.Options, int) {
	opt := w.options()
	if w.byName() {
		sources, tests, err := load.Files(w.paths)
		if err != nil {
			fmt.Fprintln(stderr, err)
			return nil, opt, noRead
		}
		opt.Tests = tests
		if !load.NeedsModules(sources) {
			return load.Versioned(sources, load.Language(w.paths[0])), opt, 0
		}
	}
	units, err := load.Modules(".", w.paths, false)
	if err != nil {
		fmt.Fprintln(stderr, err)
		return nil, opt, noRead
	}
	unit, err := only(units)
	if err != nil {
		fmt.Fprintf(stderr, "refused: %v\n", err)
		return nil, opt, refused
	}
	return unit.Program, opt, 0
}

// byName: the words name files, or a folder without a mode.
func (w words) byName() bool {
	for _, p := range w.paths {
		if w.mode != "" && !strings.HasSuffix(p, ".go") {
			return false
		}
	}
	return true
}

// only returns the one main package of those that are named.
func only(units []*load.Unit) (*load.Unit, error) {
	var mains []*load.Unit
	for _, u := range units {
		if u.Err != nil {
			return nil, u.Err
		}
		if u.Main {
			mains = append(mains, u)
		}
	}
	switch {
	case len(units) == 0:
		return nil, fmt.Errorf("no package is named")
	case len(mains) == 0:
		return nil, fmt.Errorf("package %s: only package main has a function to run", units[0].Path)
	case len(mains) > 1:
		return nil, fmt.Errorf("%s and %s are main packages: name one", mains[0].Path, mains[1].Path)
	}
	return mains[0], nil
}
