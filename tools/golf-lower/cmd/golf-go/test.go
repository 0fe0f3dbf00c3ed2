package main

import (
	"context"
	"errors"
	"fmt"
	"io"
	"os"
	"sync"
	"time"

	"golflower/load"
	"golflower/lower"
	"golflower/verdict"
)

// now tells the time. Tests of golf-go replace it.
var now = time.Now

// test runs each test of the packages as a program of its own, and looks for schedules under which it leaves a goroutine that
// can never run again.
func test(ctx context.Context, args []string, stdout, stderr io.Writer) int {
	w := parseTest(args)
	if w.wrong != "" {
		fmt.Fprintf(stderr, "golf-go: %s (golf-go test --help shows the words)\n", w.wrong)
		return usage
	}
	known, err := readBaseline(w)
	if err != nil {
		fmt.Fprintln(stderr, "golf-go:", err)
		return noRead
	}
	units, err := load.Modules(".", w.patterns, true)
	if err != nil {
		fmt.Fprintln(stderr, err)
		return noRead
	}
	timed, stop := context.WithTimeout(ctx, w.timeout)
	defer stop()
	h := &harness{words: w, known: known, stderr: &oneAtATime{to: stderr}}
	h.ctx, h.fail = context.WithCancelCause(timed)
	defer h.fail(nil)
	packages := h.all(units, w.writer(stdout))
	var fault *startError
	switch {
	case ctx.Err() != nil:
		fmt.Fprintln(stderr, "golf-go: ended")
		return noRead
	case errors.As(context.Cause(h.ctx), &fault):
		fmt.Fprintln(stderr, fault)
		return noRead
	}
	return h.finish(packages, stdout, stderr)
}

// writer writes each package when it is done.
func (w *testWords) writer(stdout io.Writer) func(*verdict.Package) {
	if w.asJSON {
		j := &verdict.JSON{Out: stdout, Now: now, AllowRefused: w.allowRefused}
		return j.Package
	}
	x := &verdict.Text{Out: stdout, Verbose: w.verbose, AllowRefused: w.allowRefused}
	return x.Package
}

// finish writes the files that are asked for and the last line, and gives the status.
func (h *harness) finish(packages []*verdict.Package, stdout, stderr io.Writer) int {
	w := h.words
	err := errors.Join(
		toFile(w.sarif, packages, verdict.WriteSARIF),
		toFile(w.junit, packages, verdict.WriteJUnit))
	if w.update {
		err = errors.Join(err, toFile(w.baseline, packages, verdict.WriteBaseline))
	}
	if err != nil {
		fmt.Fprintln(stderr, "golf-go:", err)
		return noWrite
	}
	if w.run == nil && w.skip == nil && !w.update {
		for _, k := range h.known.Unseen(packages) {
			fmt.Fprintf(stderr, "golf-go: %s: this leak was not seen: %s\n", w.baseline, k)
		}
	}
	to := stdout
	if w.asJSON {
		to = stderr
	}
	fmt.Fprintln(to, verdict.Summary(packages))
	status := verdict.Status(packages, w.allowRefused)
	if w.update && status == 1 {
		return 0
	}
	return status
}

// toFile writes packages to a file, if one is named.
func toFile(name string, packages []*verdict.Package, write func(io.Writer, []*verdict.Package) error) error {
	if name == "" {
		return nil
	}
	f, err := os.Create(name)
	if err != nil {
		return err
	}
	return errors.Join(write(f, packages), f.Close())
}

// readBaseline reads the leaks that are known. With -update the file need not be there.
func readBaseline(w *testWords) (*verdict.Baseline, error) {
	if w.baseline == "" {
		return nil, nil
	}
	text, err := os.ReadFile(w.baseline)
	if w.update && errors.Is(err, os.ErrNotExist) {
		err = nil
	}
	if err != nil {
		return nil, err
	}
	if w.update {
		return nil, nil // all leaks are found anew
	}
	return verdict.ReadBaseline(string(text)), nil
}

// harness runs the tests of packages.
type harness struct {
	ctx    context.Context
	fail   context.CancelCauseFunc // ends all, since a program could not be run
	words  *testWords
	known  *verdict.Baseline
	stderr io.Writer

	launched launched
}

// oneAtATime is a writer for packages that are tested at the same time.
type oneAtATime struct {
	mu sync.Mutex
	to io.Writer
}

func (o *oneAtATime) Write(b []byte) (int, error) {
	o.mu.Lock()
	defer o.mu.Unlock()
	return o.to.Write(b)
}

// startError says that a program could not be run.
type startError struct{ text string }

func (e *startError) Error() string { return e.text }

// all runs the tests of the packages, several at the same time, and writes each package in its turn.
func (h *harness) all(units []*load.Unit, write func(*verdict.Package)) []*verdict.Package {
	done := make([]chan *verdict.Package, len(units))
	room := make(chan bool, h.words.jobs)
	for i := range units {
		done[i] = make(chan *verdict.Package, 1)
	}
	go func() {
		for i, u := range units {
			room <- true
			go func() {
				done[i] <- h.unit(u)
				<-room
			}()
		}
	}()
	var packages []*verdict.Package
	for i := range units {
		p := <-done[i]
		if h.broken() {
			break
		}
		packages = append(packages, p)
		write(p)
	}
	return packages
}

// broken says whether all has ended before its time.
func (h *harness) broken() bool {
	cause := context.Cause(h.ctx)
	return cause != nil && !errors.Is(cause, context.DeadlineExceeded)
}

// unit runs the tests of a package.
func (h *harness) unit(u *load.Unit) *verdict.Package {
	begin := now()
	p := &verdict.Package{Path: u.Path, HasTests: len(u.Tests) > 0}
	defer func() { p.Elapsed = now().Sub(begin) }()
	names := h.words.chosenOf(u.Tests)
	var l *load.Loader
	err := u.Err
	if err == nil && len(names) > 0 {
		l, err = load.New(u.Program)
	}
	if err != nil {
		p.Refused = err.Error()
		return p
	}
	for _, name := range names {
		r := &testRun{harness: h, unit: u, loader: l, lowerings: map[lowering]*lower.Output{},
			test: &verdict.Test{Name: name, Tried: verdict.Tried{Preemptions: -1}}}
		start := now()
		r.whole()
		r.test.Elapsed = now().Sub(start)
		p.Tests = append(p.Tests, r.test)
	}
	return p
}
