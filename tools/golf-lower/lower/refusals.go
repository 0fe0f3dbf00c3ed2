package lower

import (
	"errors"
	"go/ast"
	"sort"
	"strings"

	"golflower/load"
)

// Refusals returns all that is refused of a loaded program, in the order of the places: one refusal for each statement, and
// those that the type checker finds. The list is empty if the program can be lowered.
func Refusals(l *load.Loader, opt Options) []*load.Error {
	_, first := Loaded(l, opt)
	if first == nil {
		return nil
	}
	needs := needs{texts: true, grow: map[string]bool{}}
	for {
		p := newProg(l, opt, needs)
		p.found = &findings{seen: map[string]bool{}}
		if p.collect() == errAgain {
			needs = p.needs
			continue
		}
		p.found.add(first)
		return p.found.sorted()
	}
}

// collect lowers the program and keeps what is refused on the way.
func (p *prog) collect() error {
	var err error
	func() {
		defer func() {
			if e := recover(); e != nil {
				err = p.refusal(e)
			}
		}()
		if err = p.prepare(); err == nil {
			p.whole()
		}
	}()
	if err != nil && err != errAgain {
		p.found.add(err)
	}
	return err
}

// findings are the refusals of a program.
type findings struct {
	list []*load.Error
	seen map[string]bool
}

// add keeps a refusal. A failure of the lowering behind a refusal is its consequence.
func (f *findings) add(err error) {
	var e *load.Error
	if !errors.As(err, &e) {
		e = &load.Error{Msg: err.Error()}
	}
	if f.seen[e.Error()] || f.follows(e) {
		return
	}
	f.seen[e.Error()] = true
	f.list = append(f.list, e)
}

// follows: the refusal is a consequence of another one.
func (f *findings) follows(e *load.Error) bool {
	if strings.HasPrefix(e.Msg, failure) || strings.HasPrefix(e.Msg, noType) {
		return len(f.list) > 0
	}
	for _, o := range f.list {
		if o.Pos.Filename == e.Pos.Filename && o.Pos.Line == e.Pos.Line && strings.HasPrefix(e.Msg, "address of this") {
			return true
		}
	}
	return false
}

func (f *findings) sorted() []*load.Error {
	sort.SliceStable(f.list, func(i, j int) bool {
		a, b := f.list[i].Pos, f.list[j].Pos
		if a.Filename != b.Filename {
			return a.Filename < b.Filename
		}
		return a.Offset < b.Offset
	})
	return f.list
}

// try runs g; a refusal in it is kept, if all are wanted, and g is left. It says whether g came to its end.
func (p *prog) try(g func()) (done bool) {
	if p.found == nil {
		g()
		return true
	}
	sub, key, pos, depth, native := p.sub, p.subKey, p.pos, p.depth, p.rawNative
	defer func() {
		e := recover()
		if e == nil {
			return
		}
		err := p.refusal(e)
		if err == errAgain {
			panic(errAgain)
		}
		p.found.add(err)
		p.sub, p.subKey, p.pos, p.depth, p.rawNative = sub, key, pos, depth, native
	}()
	g()
	return true
}

// stmt lowers a statement. If all refusals are wanted, one in its head does not keep those in its bodies from being found.
func (f *fctx) stmt(s ast.Stmt) {
	old := *f
	if f.p.try(func() { f.helped(s) }) {
		return
	}
	f.out, f.stack, f.hard, f.label = old.out, old.stack, old.hard, ""
	f.capture(func() {
		ast.Inspect(s, func(n ast.Node) bool {
			switch n := n.(type) {
			case *ast.FuncLit:
				f.p.try(func() { f.lift(n) })
				return false
			case *ast.BlockStmt:
				f.stmts(n.List)
				return false
			case *ast.CaseClause:
				f.stmts(n.Body)
			case *ast.CommClause:
				f.stmts(n.Body)
			}
			return true
		})
	})
}

// faulty tells that a declaration cannot be lowered.
func (p *prog) faulty(d ast.Decl) {
	err := p.Faulty[d]
	if err == nil {
		return
	}
	if p.found == nil {
		panic(err)
	}
	p.found.add(err)
	for _, e := range p.More[d] {
		p.found.add(e)
	}
}
