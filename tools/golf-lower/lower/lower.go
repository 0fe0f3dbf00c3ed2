// Package lower turns a loaded program into one file of GoLF's subset.
//
// The stages: package load parses and type-checks; package desugar replaces statements by simpler ones; package analyse
// finds what is captured, shared and grown; prog.go lowers from main on until nothing new is referred to; package tree changes
// and prints what comes out. What cannot be lowered is refused with its place: nothing is guessed.
package lower

import (
	"errors"
	"fmt"
	"go/ast"
	"go/token"
	"go/types"

	"golflower/analyse"
	"golflower/desugar"
	"golflower/load"
)

// Options say what is added to the program.
type Options struct {
	Collect bool   // a collection before main returns
	Late    bool   // a goroutine that the files start waits before its first statement
	Pause   bool   // a goroutine waits, now and then, before a statement that can block
	Hold    bool   // a goroutine waits, where the schedule chooses so, before it begins and before what others can see
	Loose   bool   // time passes while goroutines run
	Tests   bool   // main calls the tests of the files
	Only    string // the only test that is called
	Short   bool   // testing.Short
}

// Lower lowers a program.
func Lower(program *load.Program, opt Options) (*Output, error) {
	l, err := load.New(program)
	if err != nil {
		return nil, err
	}
	return Loaded(l, opt)
}

// Loaded lowers a program that is loaded. A loaded program can be lowered several times.
func Loaded(l *load.Loader, opt Options) (*Output, error) {
	var n Needs
	return n.Loaded(l, opt)
}

// Needs are what the lowerings of a program so far have found that it needs. The next one begins with them, so that it finds
// nothing on its way and is not begun again. It must lower the same tests.
type Needs struct{ found *needs }

// Loaded is the function Loaded for a program whose needs may be known.
func (n *Needs) Loaded(l *load.Loader, opt Options) (*Output, error) {
	needs := needs{texts: opt.Tests, grow: map[string]bool{}}
	if n.found != nil {
		needs = *n.found
		needs.clock = needs.clock && !opt.Loose
	}
	for {
		p := newProg(l, opt, needs)
		out, err := p.lower()
		switch {
		case err == errAgain: // a need was found on the way, and all is lowered otherwise with it
			needs = p.needs
		case err != nil && !p.texts:
			needs.texts = true // what is refused may be an operation on strings that are made at run time
		default:
			n.add(needs)
			return out, err
		}
	}
}

// add adds what a lowering has found.
func (n *Needs) add(more needs) {
	if n.found != nil {
		more.clock = more.clock || n.found.clock
	}
	n.found = &more
}

// needs is what a program needs that changes how all of it is lowered.
type needs struct {
	texts  bool // strings are made at run time (text.go)
	unwind bool // panics can be recovered (unwind.go)
	clock  bool // time passes while all goroutines wait (clock.go)

	grow map[string]bool // element types of slices that contain themselves
}

// errAgain ends a lowering that has found that the program needs more.
var errAgain = errors.New("the program needs more")

// need notes a need of the program.
func (p *prog) need(n *bool) {
	if !*n {
		*n = true
		panic(errAgain)
	}
}

// lower lowers the program once.
func (p *prog) lower() (out *Output, err error) {
	defer func() {
		if e := recover(); e != nil {
			err = p.refusal(e)
		}
	}()
	if err := p.prepare(); err != nil {
		return nil, err
	}
	// The names of the user's packages come first, so that they are kept.
	for _, k := range p.Roots {
		scope := k.Types.Scope()
		for _, n := range scope.Names() {
			p.objName(scope.Lookup(n))
		}
	}
	p.whole()
	head := &buffer{}
	head.add(0, "package main")
	head.add(0, "")
	for _, i := range []string{"fmt", "runtime", "sync"} {
		if p.imports[i] {
			head.add(0, "import %q", i)
		}
	}
	return p.finish(append([]*buffer{head, &p.globals}, p.ordered()...)...)
}

// prepare loads what the lowering itself refers to, and analyses all packages.
func (p *prog) prepare() error {
	if first := p.user.Files[0]; first.Name.Name != "main" && !p.opt.Tests {
		return &load.Error{Pos: p.Fset.Position(first.Name.Pos()),
			Msg: fmt.Sprintf("package %s: only package main has a function to run", first.Name.Name)}
	}
	p.texts = p.texts || p.unwind || p.needsTexts()
	names := []string{"golf"}
	if p.texts {
		names = append(names, "errors", "fmt", "strconv")
	}
	if p.unwind {
		names = append(names, "runtime")
	}
	if p.opt.Late || p.opt.Pause {
		names = append(names, "time")
	}
	for _, name := range names {
		if _, err := p.Package(name); err != nil {
			return err
		}
	}
	for _, k := range p.List {
		desugar.Package(p.Loader, k)
		for _, f := range k.Files {
			if k.User {
				p.names.collect(f)
			}
			p.noteBodies(f)
			p.File(p.Loader, f)
		}
	}
	return nil
}

// noteBodies finds the declarations of functions.
func (p *prog) noteBodies(f *ast.File) {
	for _, d := range f.Decls {
		if fd, ok := d.(*ast.FuncDecl); ok {
			if fn, ok := p.Info.Defs[fd.Name].(*types.Func); ok {
				p.bodies[fn] = fd
			}
		}
	}
}

// prog is the state of one lowering.
type prog struct {
	*load.Loader
	needs
	opt     Options
	user    *load.Pkg // the first of the packages with which the run begins
	inits   map[*load.Pkg][]*ast.FuncDecl
	started map[*load.Pkg][]string
	reached map[*types.Package]bool

	*analyse.Facts
	lifted map[*ast.FuncLit]map[string]string // the functions that literals become, for each instance that they are in

	names names

	// the type arguments of the function that is being lowered
	sub    map[*types.TypeParam]types.Type
	subKey string

	// interned parts of the output
	auxNames map[string]string
	structs  map[string]*structInfo
	fns      map[string]*fnInfo
	fnList   []*fnInfo
	dyns     map[string]*dyn
	anyNums  map[string]int
	anyTypes []string
	dynList  []*dyn
	disps    map[string]*dispatcher
	dispList []*dispatcher
	tests    map[string]*ifaceTest

	namesakes map[string]*namesake
	sakeList  []*namesake
	testList  []*ifaceTest
	formats   map[string]*formatter
	formList  []*formatter
	literals  map[string]bool // string constants whose bytes may be asked for
	litList   []string

	anyEqual, anyDeep  *comparison
	comparable         string            // the function that says whether an interface can be compared
	uncompared         map[string]string // the functions that name the type for which one cannot be, by the text before it
	usesAny, usesBytes bool
	imports            map[string]bool

	// functions that are referred to and still to be lowered
	bodies map[*types.Func]*ast.FuncDecl
	asked  map[string]bool
	queue  []func()
	globs  map[*types.Var]bool // globals that are referred to

	globals, decls buffer
	chunks         []chunk // functions and the user's types

	sites       []token.Pos       // where panics are raised, by number
	siteNumbers map[token.Pos]int // and their numbers
	inner       map[string]string // the inner function of one that keeps its results for deferred calls
	timed       bool              // the clock is reached
	parallel    bool              // T.Parallel is reached
	parts       bool              // T.Run is reached
	clockwork   map[string]bool   // the functions of the clock
	library     map[string]string // those of the standard library, with their names there
	timers      timers
	targets     map[ast.Expr]types.Type // the interfaces that get values (copies.go)
	rawNative   bool                    // a method of sync is called as it is (clock.go)
	printsAlone bool                    // constants are only printed (text.go)

	open    []string          // types that are being held (types.go)
	ownName map[string]string // the structs of those that contain themselves
	ownDone map[string]bool   // those that are written, or are being written

	found *findings // all refusals, if they are wanted
	pos   token.Pos // of what is being lowered
	depth int       // of types in types
}

func newProg(l *load.Loader, opt Options, n needs) *prog {
	p := &prog{
		ownName: map[string]string{}, ownDone: map[string]bool{},
		Loader: l, needs: n, opt: opt, user: l.Roots[0], Facts: analyse.New(),
		lifted: map[*ast.FuncLit]map[string]string{},
		names:  newNames(), auxNames: map[string]string{}, structs: map[string]*structInfo{},
		fns: map[string]*fnInfo{}, dyns: map[string]*dyn{}, anyNums: map[string]int{}, disps: map[string]*dispatcher{},
		tests: map[string]*ifaceTest{}, namesakes: map[string]*namesake{}, uncompared: map[string]string{}, formats: map[string]*formatter{}, literals: map[string]bool{},
		imports: map[string]bool{}, bodies: map[*types.Func]*ast.FuncDecl{}, asked: map[string]bool{},
		globs: map[*types.Var]bool{}, started: map[*load.Pkg][]string{}, reached: map[*types.Package]bool{}, siteNumbers: map[token.Pos]int{}, inner: map[string]string{},
		clockwork: map[string]bool{"golf_quiet": true}, library: map[string]string{}, targets: map[ast.Expr]types.Type{},
	}
	for elem := range n.grow {
		p.Growing[elem] = true
	}
	return p
}

// guard turns a refusal into an error.
func (p *prog) guard(err *error) {
	if e := recover(); e != nil {
		if *err = p.refusal(e); *err == errAgain {
			panic(errAgain)
		}
	}
}

// refusal is the error that a panic of the lowering stands for. A failure of the lowering itself is one too: it is told
// with the place.
func (p *prog) refusal(e any) error {
	if e, ok := e.(*load.Error); ok {
		return e
	}
	if e == errAgain {
		return errAgain
	}
	return &load.Error{Pos: p.Fset.Position(p.pos), Msg: fmt.Sprintf("%s here: %v", failure, e)}
}

// failure begins what is told of a failure of the lowering itself.
const failure = "the lowering fails"

// refuse stops the lowering, with the place of what is being lowered.
func (p *prog) refuse(format string, args ...any) {
	p.refuseAt(p.pos, format, args...)
}

func (p *prog) refuseAt(pos token.Pos, format string, args ...any) {
	panic(p.errorAt(pos, format, args...))
}

// errorAt is a refusal.
func (p *prog) errorAt(pos token.Pos, format string, args ...any) error {
	return &load.Error{Pos: p.Fset.Position(pos), Msg: fmt.Sprintf(format, args...) + ": not supported"}
}
