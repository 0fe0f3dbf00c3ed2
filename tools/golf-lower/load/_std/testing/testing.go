// Package testing: tests run one after the other, and what they log is written when they end.
package testing

import (
	"context"
	"os"
	"sync"
)

// mu guards what several goroutines may change of a test.
var mu sync.Mutex

// T is a test. What it and its parts have to tell is kept until it ends.
type T struct {
	name    string
	depth   int
	parent  *T
	failed  bool
	skipped bool
	log     string
	parts   string
	last    *cleanup
	ctx     context.Context
	cancel  context.CancelFunc

	signal   chan bool
	barrier  chan struct{} // closed once the function has returned
	subs     []*T          // those that run in parallel
	parallel bool
	done     bool
	where    string // of the call of a helper
}

// Context is cancelled before the functions of Cleanup are called.
func (t *T) Context() context.Context {
	if t.ctx == nil {
		t.ctx, t.cancel = context.WithCancel(context.Background())
	}
	return t.ctx
}

type cleanup struct {
	f    func()
	next *cleanup
}

// These are lowered where they are called: the text has the line, and a test that stops returns.
func (t *T) Log(args ...any)
func (t *T) Logf(format string, args ...any)
func (t *T) Error(args ...any)
func (t *T) Errorf(format string, args ...any)
func (t *T) Fatal(args ...any)
func (t *T) Fatalf(format string, args ...any)
func (t *T) Skip(args ...any)
func (t *T) Skipf(format string, args ...any)
func (t *T) FailNow()
func (t *T) SkipNow()

// These touch files, or the process: a test that calls them is refused.
func (t *T) TempDir() string
func (t *T) Setenv(key, value string)
func (t *T) Chdir(dir string)

// TB is what helpers of tests and of benchmarks take. Only tests are run.
type TB interface {
	Chdir(dir string)
	Cleanup(f func())
	Context() context.Context
	Error(args ...any)
	Errorf(format string, args ...any)
	Fail()
	FailNow()
	Failed() bool
	Fatal(args ...any)
	Fatalf(format string, args ...any)
	Helper()
	Log(args ...any)
	Logf(format string, args ...any)
	Name() string
	Setenv(key, value string)
	Skip(args ...any)
	SkipNow()
	Skipf(format string, args ...any)
	Skipped() bool
	TempDir() string
}

func (t *T) Fail()         { t.failed = true }
func (t *T) Failed() bool  { return t.failed }
func (t *T) Skipped() bool { return t.skipped }
func (t *T) Name() string  { return t.name }
func (t *T) Helper()       {}

// Parallel lets the parent go on; the test goes on once the parent's function has returned.
func (t *T) Parallel() {
	if t.parallel || t.parent == nil {
		return
	}
	t.parallel = true
	p := t.parent
	p.subs = append(p.subs, t)
	t.signal <- true
	<-p.barrier
}

func (t *T) Cleanup(f func()) { t.last = &cleanup{f, t.last} }

func (t *T) Run(name string, f func(t *T)) bool {
	s := ""
	for _, c := range []byte(name) {
		if c == ' ' {
			c = '_'
		}
		s += string([]byte{c})
	}
	u := newT(t.name+"/"+s, t.depth+1, t)
	go runner(u, f)
	<-u.signal
	return !u.failed
}

func newT(name string, depth int, parent *T) *T {
	return &T{name: name, depth: depth, parent: parent, signal: make(chan bool, 2), barrier: make(chan struct{})}
}

// runner is the goroutine of a test.
func runner(u *T, f func(t *T)) {
	apply(f, u)
	close(u.barrier)
	for _, s := range u.subs {
		for !s.done {
			<-s.signal
		}
	}
	finish(u)
	u.done = true
	u.signal <- true
}

// apply calls f, which may end by Goexit; it is lowered where it is called.
func apply(f func(t *T), t *T)

// Top runs a test of the files.
func top(name string, f func(t *T)) {
	u := newT(name, 0, nil)
	go runner(u, f)
	<-u.signal
}

// note keeps a line of the log.
func note(t *T, text string) {
	text = indent(t.depth+1) + text + "\n"
	mu.Lock()
	t.log += text
	mu.Unlock()
}

// enter notes where a helper is called, and returns what was noted before.
func enter(t *T, where string) string {
	old := t.where
	t.where = where
	return old
}

func leaveTo(t *T, old string) { t.where = old }

// place is the place that a helper tells.
func place(t *T, own string) string {
	if t.where != "" {
		return t.where
	}
	return own
}

func fail(t *T) { t.failed = true }
func skip(t *T) { t.skipped = true }

func indent(depth int) string {
	s := ""
	for i := 0; i < depth; i++ {
		s += "    "
	}
	return s
}

// clean calls what Cleanup has been given, the last first.
func clean(t *T) {
	if t.cancel != nil {
		t.cancel()
	}
	for t.last != nil {
		c := t.last
		t.last = c.next
		c.f()
	}
}

// finish ends a test.
func finish(t *T) {
	clean(t)
	if t.parent != nil {
		finishPart(t)
		return
	}
	switch {
	case t.failed:
		failed = true
		head("FAIL", t.name)
	case t.skipped:
		head("SKIP", t.name)
	default:
		head("PASS", t.name)
	}
	if t.log != "" {
		write(t.log)
	}
	if t.parts != "" {
		write(t.parts)
	}
}

// finishPart ends a part, whose parent tells of it.
func finishPart(t *T) {
	word := "PASS"
	if t.failed {
		word = "FAIL"
	} else if t.skipped {
		word = "SKIP"
	}
	s := indent(t.depth) + "--- " + word + ": " + t.name + "\n" + t.log + t.parts
	mu.Lock()
	t.parent.parts += s
	t.parent.failed = t.parent.failed || t.failed
	mu.Unlock()
}

// These are lowered where they are called. head writes the line of a test.
func write(s string)
func head(word, name string)

var failed bool

func end() {
	verdict()
	if failed {
		os.Exit(1)
	}
}

// B and F are for the functions that are not called here.
type B struct{ N int }

func (b *B) ResetTimer()
func (b *B) ReportAllocs()
func (b *B) Loop() bool

type F struct{ n int }

func (f *F) Add(args ...any)
func (f *F) Fuzz(ff any)

// M runs the tests that are planned, if the files have a TestMain.
type M struct{ code int }

type planned struct {
	name string
	f    func(t *T)
	next *planned
}

var first, last *planned

// plan keeps a test for M.Run.
func plan(name string, f func(t *T)) {
	p := &planned{name: name, f: f}
	if last == nil {
		first = p
	} else {
		last.next = p
	}
	last = p
}

func newM() *M { return &M{} }

func (m *M) Run() int {
	for p := first; p != nil; p = p.next {
		top(p.name, p.f)
	}
	m.code = 0
	if failed {
		m.code = 1
	}
	verdict()
	return m.code
}

// leave ends the program once TestMain has returned.
func leave(m *M) { os.Exit(m.code) }

// verdict writes the last line.
func verdict() {
	if failed {
		write("FAIL\n")
	} else {
		write("PASS\n")
	}
}

// Short is lowered where it is called.
func Short() bool

func Verbose() bool { return false }
func Testing() bool { return true }
