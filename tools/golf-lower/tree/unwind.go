package tree

import (
	"go/ast"
	"go/token"
)

// Unwinding. The lowering writes golf_g for the state of a goroutine as if it were a global variable, golf_raised() for the
// question whether a panic is on its way, and golf_recover() for recover. This pass makes golf_g the first parameter of each
// function that needs it, and takes the questions away where nothing can have raised a panic.
//
// recover works only in a function that a deferred call names. Such a call leaves in golf_g.direct what it has put aside, and
// the function takes it from there when it begins.

// Unwinding is what the pass must know of the lowering.
type Unwinding struct {
	Dispatchers map[string]bool   // functions that call others by a tag
	Inner       map[string]string // the inner function of one that keeps its results for deferred calls
}

// The names of the state and of what belongs to it.
const (
	stateName  = "golf_g"
	stateType  = "golf_G"
	raisedName = "golf_raised"
	directName = "golf_direct"
	asideName  = "golf_d"
)

// Unwind gives the state of the goroutine to the functions that need it.
func (f *File) Unwind(u Unwinding) {
	t := &threader{file: f, Unwinding: u, funcs: f.funcs(), needs: map[string]bool{}, deferred: map[string]bool{}, wrappers: map[string]bool{}}
	t.findDeferred()
	t.findNeeds()
	for _, d := range append([]ast.Decl(nil), f.Tree.Decls...) {
		if fd, ok := d.(*ast.FuncDecl); ok {
			t.function(fd)
		}
	}
	for name, fd := range t.funcs {
		if t.needs[name] && name != "main" {
			fd.Type.Params.List = append([]*ast.Field{stateField(fd.Pos())}, fd.Type.Params.List...)
		}
	}
}

type threader struct {
	Unwinding
	file     *File
	funcs    map[string]*ast.FuncDecl
	needs    map[string]bool // functions that get the state
	deferred map[string]bool // functions that a deferred call may begin with
	wrappers map[string]bool
}

// calls calls visit with the name of each function that a node calls.
func calls(n ast.Node, visit func(string)) {
	ast.Inspect(n, func(m ast.Node) bool {
		if c, ok := m.(*ast.CallExpr); ok {
			if s := callee(c); s != "" {
				visit(s)
			}
		}
		return true
	})
}

// findDeferred finds the functions with which a deferred call may begin, also by a tag.
func (t *threader) findDeferred() {
	var add func(string)
	add = func(name string) {
		fd := t.funcs[name]
		if fd == nil || t.deferred[name] {
			return
		}
		t.deferred[name] = true
		if t.Dispatchers[name] {
			calls(fd.Body, add)
		}
	}
	for _, fd := range t.funcs {
		ast.Inspect(fd.Body, func(n ast.Node) bool {
			if d, ok := n.(*ast.DeferStmt); ok {
				add(callee(d.Call))
			}
			return true
		})
	}
}

// recovers: the function itself calls recover.
func (t *threader) recovers(name string) bool {
	fd := t.funcs[name]
	if fd == nil {
		return false
	}
	found := false
	calls(fd.Body, func(s string) { found = found || s == "golf_recover" })
	return found || t.Inner[name] != "" && t.recovers(t.Inner[name])
}

// forgets: the function may be called in place of one that recovers, and does not recover itself.
func (t *threader) forgets(name string) bool {
	return t.deferred[name] && !t.Dispatchers[name] && !t.recovers(name)
}

// findNeeds finds the functions that need the state: those that name it, and those that call such a function.
func (t *threader) findNeeds() {
	callers := map[string][]string{}
	var work []string
	need := func(name string) {
		if t.funcs[name] != nil && !t.needs[name] {
			t.needs[name] = true
			work = append(work, name)
		}
	}
	for name, fd := range t.funcs {
		ast.Inspect(fd.Body, func(n ast.Node) bool {
			switch n := n.(type) {
			case *ast.Ident:
				if n.Name == stateName {
					need(name)
				}
			case *ast.CallExpr:
				s := callee(n)
				if s == "golf_recover" {
					need(name) // it takes from golf_g what has been put aside
				}
				callers[s] = append(callers[s], name)
			case *ast.GoStmt:
				for _, a := range n.Call.Args {
					calls(a, func(s string) { callers[s] = append(callers[s], name) })
				}
				return false
			case *ast.IfStmt:
				return !isQuestion(n)
			}
			return true
		})
	}
	need("main")
	for len(work) > 0 {
		name := work[len(work)-1]
		work = work[:len(work)-1]
		for _, c := range callers[name] {
			need(c)
		}
	}
}

// isQuestion: the statement asks whether a panic has been raised.
func isQuestion(s ast.Stmt) bool {
	i, ok := s.(*ast.IfStmt)
	if !ok {
		return false
	}
	c, ok := i.Cond.(*ast.CallExpr)
	return ok && callee(c) == raisedName
}

func stateField(pos token.Pos) *ast.Field {
	return &ast.Field{Names: []*ast.Ident{name(pos, stateName)}, Type: &ast.StarExpr{Star: pos, X: name(pos, stateType)}}
}

// function changes the body of one function.
func (t *threader) function(fd *ast.FuncDecl) {
	own := fd.Name.Name
	rewrite(fd.Body, t.questions)
	ast.Inspect(fd.Body, func(n ast.Node) bool {
		switch n := n.(type) {
		case *ast.GoStmt:
			t.goStmt(n)
			return false
		case *ast.DeferStmt:
			t.deferStmt(n)
			return false
		case *ast.CallExpr:
			t.call(n)
		}
		return true
	})
	pos := fd.Body.Lbrace
	direct := &ast.SelectorExpr{X: name(pos, stateName), Sel: name(pos, "direct")}
	forget := assign(pos, direct, token.ASSIGN, name(pos, "nil"))
	var first []ast.Stmt
	switch {
	case own == "main":
		first = append(first, newState(pos))
	case !t.needs[own]:
	case t.recovers(own) && t.Inner[own] == "":
		first = append(first, assign(pos, name(pos, directName), token.DEFINE, direct), forget)
	case t.forgets(own):
		first = append(first, forget)
	}
	fd.Body.List = append(first, fd.Body.List...)
}

func assign(pos token.Pos, l ast.Expr, tok token.Token, r ast.Expr) ast.Stmt {
	return &ast.AssignStmt{Lhs: []ast.Expr{l}, TokPos: pos, Tok: tok, Rhs: []ast.Expr{r}}
}

// newState is golf_g := &golf_G{}.
func newState(pos token.Pos) ast.Stmt {
	lit := &ast.UnaryExpr{OpPos: pos, Op: token.AND, X: &ast.CompositeLit{Type: name(pos, stateType), Lbrace: pos, Rbrace: pos}}
	return assign(pos, name(pos, stateName), token.DEFINE, lit)
}

// call gives the state to the function that is called.
func (t *threader) call(c *ast.CallExpr) {
	s := callee(c)
	if s == "golf_recover" && len(c.Args) == 0 {
		c.Args = []ast.Expr{name(c.Pos(), directName)}
	}
	if t.needs[s] {
		c.Args = append([]ast.Expr{name(c.Pos(), stateName)}, c.Args...)
	}
}

// args changes the arguments of a call that goes on elsewhere.
func (t *threader) args(c *ast.CallExpr) {
	for _, a := range c.Args {
		ast.Inspect(a, func(n ast.Node) bool {
			if c, ok := n.(*ast.CallExpr); ok {
				t.call(c)
			}
			return true
		})
	}
}

// questions keeps a question if a call in the statement before it can raise a panic.
func (t *threader) questions(list []ast.Stmt) []ast.Stmt {
	var kept []ast.Stmt
	var before ast.Stmt
	for _, s := range list {
		if !isQuestion(s) {
			kept, before = append(kept, s), s
			continue
		}
		raises := before == nil
		if before != nil {
			calls(before, func(c string) { raises = raises || t.needs[c] })
		}
		if raises {
			pos := s.Pos()
			s.(*ast.IfStmt).Cond = &ast.BinaryExpr{
				X:     &ast.SelectorExpr{X: name(pos, stateName), Sel: name(pos, "p")},
				OpPos: pos, Op: token.NEQ, Y: name(pos, "nil"),
			}
			kept = append(kept, s)
		}
	}
	return kept
}

// goStmt starts a function that makes the state of a goroutine and calls the function.
func (t *threader) goStmt(g *ast.GoStmt) {
	t.args(g.Call)
	s := callee(g.Call)
	if !t.needs[s] {
		return
	}
	fd := t.funcs[s]
	wrapper := "golf_go_" + s
	if !t.wrappers[wrapper] {
		t.wrappers[wrapper] = true
		pos := fd.Pos()
		args := append([]ast.Expr{name(pos, stateName)}, paramNames(pos, fd.Type.Params)...)
		t.add(fd, wrapper, fd.Type.Params.List, newState(pos), call(pos, s, args...), call(pos, "golf_end", name(pos, stateName)))
	}
	g.Call.Fun = name(g.Call.Fun.Pos(), wrapper)
}

// deferStmt defers a function that puts the panic aside while it calls the function.
func (t *threader) deferStmt(d *ast.DeferStmt) {
	t.args(d.Call)
	s := callee(d.Call)
	if !t.needs[s] {
		return
	}
	fd := t.funcs[s]
	wrapper := "golf_defer_" + s
	if !t.wrappers[wrapper] {
		t.wrappers[wrapper] = true
		t.deferWrapper(fd, wrapper)
	}
	d.Call.Fun = name(d.Call.Fun.Pos(), wrapper)
	d.Call.Args = append([]ast.Expr{name(d.Call.Fun.Pos(), stateName)}, d.Call.Args...)
}

func (t *threader) deferWrapper(fd *ast.FuncDecl, wrapper string) {
	pos, s := fd.Pos(), fd.Name.Name
	state := func() ast.Expr { return name(pos, stateName) }
	aside := &ast.CallExpr{Fun: name(pos, "golf_aside"), Lparen: pos, Args: []ast.Expr{state()}, Rparen: pos}
	list := []ast.Stmt{assign(pos, name(pos, asideName), token.DEFINE, aside)}
	if t.recovers(s) || t.Dispatchers[s] {
		direct := &ast.SelectorExpr{X: state(), Sel: name(pos, "direct")}
		list = append(list, assign(pos, direct, token.ASSIGN, name(pos, asideName)))
	}
	args := append([]ast.Expr{state()}, paramNames(pos, fd.Type.Params)...)
	list = append(list, call(pos, s, args...), call(pos, "golf_back", state(), name(pos, asideName)))
	t.add(fd, wrapper, append([]*ast.Field{stateField(pos)}, fd.Type.Params.List...), list...)
}

// add adds a function behind another one.
func (t *threader) add(fd *ast.FuncDecl, s string, params []*ast.Field, list ...ast.Stmt) {
	pos := fd.Pos()
	t.file.addAfter(fd, &ast.FuncDecl{
		Name: name(pos, s),
		Type: &ast.FuncType{Func: pos, Params: &ast.FieldList{List: params}},
		Body: &ast.BlockStmt{Lbrace: pos, List: list, Rbrace: pos},
	})
}

// DropQuestions takes the questions whether a panic has been raised out of a program that recovers none.
func (f *File) DropQuestions() {
	for _, fd := range f.funcs() {
		rewrite(fd.Body, func(list []ast.Stmt) []ast.Stmt {
			kept := list[:0]
			for _, s := range list {
				if !isQuestion(s) {
					kept = append(kept, s)
				}
			}
			return kept
		})
	}
}
