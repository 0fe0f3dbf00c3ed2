// Package analyse finds how the variables, literals and types of a program are used, before it is lowered: which variables a
// literal captures, of what an address is taken, which slices grow. What cannot be lowered whatever the types are is kept
// with its declaration.
package analyse

import (
	"fmt"
	"go/ast"
	"go/token"
	"go/types"

	"golflower/kind"
	"golflower/load"
)

// Facts are what is found of a program.
type Facts struct {
	Vars        map[*types.Var]*Var
	Lits        map[*ast.FuncLit]*Lit
	BoxedFields map[*types.Var]bool // fields whose address is taken
	BoxedElems  map[string]bool     // element types of slices and arrays of which an address is taken
	Growing     map[string]bool     // element types of slices that are appended to or sliced
	GrowAll     bool                // a slice of a type parameter is
	Addressed   map[string]bool     // structs whose address is used as a number
	GenericCond bool                // conditions on something else than a *sync.Mutex
	HasGo       bool                // the user's files start goroutines
}

// New returns no facts.
func New() *Facts {
	return &Facts{
		Vars: map[*types.Var]*Var{}, Lits: map[*ast.FuncLit]*Lit{}, BoxedFields: map[*types.Var]bool{},
		BoxedElems: map[string]bool{}, Growing: map[string]bool{}, Addressed: map[string]bool{},
	}
}

// Var says how a local variable is used.
type Var struct {
	Owner    ast.Node // the function that declares it: FuncDecl or FuncLit
	Captured bool     // a function literal inside refers to it
	Assigned bool     // it is assigned to after its declaration
	Addr     bool     // its address is taken
	Pointed  bool     // its address is taken, or that of a part of it, also if it is a struct or an array
	Used     bool     // it is read or assigned to somewhere
}

// Lit is a function literal with its free variables, in the order of first use.
type Lit struct {
	Free []*types.Var
	Test bool // it is a part of a test
	has  map[*types.Var]bool
}

// analyser walks one declaration.
type analyser struct {
	facts  *Facts
	l      *load.Loader
	funcs  []ast.Node          // the functions around
	post   map[*types.Var]bool // variables of the loop whose last statement is being walked
	head   bool                // inside a loop's header
	unsafe map[ast.Expr]bool   // an element whose address is only that of the bytes of a string
	okL    map[ast.Expr]bool   // c.L right before .Lock() or .Unlock()

	refusals []error
}

// File analyses the declarations of a file.
func (f *Facts) File(l *load.Loader, file *ast.File) {
	for _, d := range file.Decls {
		a := &analyser{facts: f, l: l, post: map[*types.Var]bool{}, okL: map[ast.Expr]bool{}, unsafe: map[ast.Expr]bool{}}
		a.walk(d)
		if len(a.refusals) > 0 && l.Faulty[d] == nil {
			l.Faulty[d], l.More[d] = a.refusals[0], a.refusals[1:]
		}
	}
}

// refuse notes what cannot be lowered.
func (a *analyser) refuse(pos token.Pos, format string, args ...any) {
	text := fmt.Sprintf(format, args...) + ": not supported"
	a.refusals = append(a.refusals, &load.Error{Pos: a.l.Fset.Position(pos), Msg: text})
}

func (a *analyser) info(v *types.Var) *Var {
	i := a.facts.Vars[v]
	if i == nil {
		i = &Var{}
		a.facts.Vars[v] = i
	}
	return i
}

func (a *analyser) walk(n ast.Node) {
	ast.Inspect(n, func(n ast.Node) bool {
		switch n := n.(type) {
		case *ast.FuncDecl:
			a.enter(n, func() {
				if n.Recv != nil {
					a.walk(n.Recv)
				}
				a.walk(n.Type)
				a.results(n.Type)
				if n.Body != nil {
					a.walk(n.Body)
				}
			})
			return false
		case *ast.FuncLit:
			a.facts.Lits[n] = &Lit{has: map[*types.Var]bool{}}
			if a.head {
				a.refuse(n.Pos(), "function literal in the header of a loop")
			}
			a.enter(n, func() {
				if sig, ok := a.typ(n).(*types.Signature); ok {
					for i := 0; i < sig.Params().Len(); i++ {
						a.info(sig.Params().At(i)).Owner = n // also of a literal that a range has become
					}
				}
				a.walk(n.Type)
				a.results(n.Type)
				a.walk(n.Body)
			})
			return false
		case *ast.ForStmt:
			a.forStmt(n)
			return false
		case *ast.RangeStmt:
			if n.Tok == token.ASSIGN {
				a.assign(n.Key)
				a.assign(n.Value)
			}
		case *ast.AssignStmt:
			for _, l := range n.Lhs {
				a.assign(l)
			}
		case *ast.GoStmt:
			a.facts.HasGo = a.facts.HasGo || !load.IsStandard(a.l.Fset.Position(n.Pos()).Filename)
		case *ast.IncDecStmt:
			a.assign(n.X)
		case *ast.UnaryExpr:
			if n.Op == token.AND {
				a.pointed(n.X)
				a.address(n.X)
			}
		case *ast.SliceExpr:
			a.grows(a.typ(n.X))
			if _, isArray := kind.Under(a.typ(n.X)).(*types.Array); isArray {
				a.pointed(n.X)
			}
		case *ast.StarExpr:
			if y := BitsOf(a.l.Info, n); y != nil {
				a.walk(y)
				return false
			}
		case *ast.CallExpr:
			if s, ok := ast.Unparen(n.Fun).(*ast.SelectorExpr); ok && (s.Sel.Name == "String" || s.Sel.Name == "Slice") && len(n.Args) == 2 {
				if b, ok := a.l.Info.Uses[s.Sel].(*types.Builtin); ok && b != nil {
					if u, ok := ast.Unparen(n.Args[0]).(*ast.UnaryExpr); ok {
						a.unsafe[ast.Unparen(u.X)] = true
					}
				}
			}
			a.call(n)
		case *ast.SelectorExpr:
			a.selector(n)
		case *ast.CaseClause:
			if v, ok := a.l.Info.Implicits[n].(*types.Var); ok && len(a.funcs) > 0 {
				a.info(v).Owner = a.funcs[len(a.funcs)-1]
			}
		case *ast.Field:
			if kind.Native(a.typ(n.Type)) == "sync.Cond" {
				a.facts.GenericCond = true
			}
		case *ast.Ident:
			a.ident(n)
		}
		return true
	})
}

// results: a return assigns to the named results.
func (a *analyser) results(t *ast.FuncType) {
	if t.Results == nil {
		return
	}
	for _, f := range t.Results.List {
		for _, id := range f.Names {
			if v, ok := a.l.Info.Defs[id].(*types.Var); ok {
				a.info(v).Assigned = true
			}
		}
	}
}

// grows notes that slices of this type are appended to or sliced.
func (a *analyser) grows(t types.Type) {
	var elem types.Type
	switch u := kind.Under(kind.Deref(t)).(type) {
	case *types.Slice:
		elem = u.Elem()
	case *types.Array:
		elem = u.Elem()
	case *types.Interface: // of a type parameter
		a.facts.GrowAll = a.facts.GrowAll || kind.IsParam(t)
		return
	default:
		return
	}
	if kind.HasParam(elem) {
		a.facts.GrowAll = true
	}
	a.facts.Growing[kind.Key(elem)] = true
}

func (a *analyser) typ(e ast.Expr) types.Type {
	if t := a.l.Info.TypeOf(e); t != nil {
		return t
	}
	return types.Typ[types.Invalid]
}

func (a *analyser) enter(n ast.Node, f func()) {
	a.funcs = append(a.funcs, n)
	head := a.head
	a.head = false
	f()
	a.head = head
	a.funcs = a.funcs[:len(a.funcs)-1]
}

// forStmt: variables of the header are new in each iteration, so that an assignment
// in the last part of the header changes a copy that no literal has captured yet.
func (a *analyser) forStmt(n *ast.ForStmt) {
	mine := map[*types.Var]bool{}
	a.head = true
	if n.Init != nil {
		a.walk(n.Init)
		if s, ok := n.Init.(*ast.AssignStmt); ok && s.Tok == token.DEFINE {
			for _, l := range s.Lhs {
				if id, ok := l.(*ast.Ident); ok {
					if v, ok := a.l.Info.Defs[id].(*types.Var); ok {
						mine[v] = true
					}
				}
			}
		}
	}
	if n.Cond != nil {
		a.walk(n.Cond)
	}
	if n.Post != nil {
		old := a.post
		a.post = mine
		a.walk(n.Post)
		a.post = old
	}
	a.head = false
	a.walk(n.Body)
}

func (a *analyser) ident(id *ast.Ident) {
	if len(a.funcs) == 0 {
		return
	}
	cur := a.funcs[len(a.funcs)-1]
	if v, ok := a.l.Info.Defs[id].(*types.Var); ok && !v.IsField() {
		a.info(v).Owner = cur
		return
	}
	v, ok := a.l.Info.Uses[id].(*types.Var)
	if !ok || v.IsField() || v.Pkg() == nil || v.Parent() == v.Pkg().Scope() {
		return
	}
	i := a.info(v)
	i.Used = true
	if i.Owner == nil || i.Owner == cur {
		return
	}
	i.Captured = true
	for k := len(a.funcs) - 1; k >= 0 && a.funcs[k] != i.Owner; k-- {
		l := a.facts.Lits[a.funcs[k].(*ast.FuncLit)]
		if !l.has[v] {
			l.has[v] = true
			l.Free = append(l.Free, v)
		}
	}
}

// assign notes an assignment to a variable that was there before.
func (a *analyser) assign(e ast.Expr) {
	if e == nil {
		return
	}
	if id, ok := ast.Unparen(e).(*ast.Ident); ok {
		if v, ok := a.l.Info.Uses[id].(*types.Var); ok && !a.post[v] {
			a.info(v).Assigned = true
		}
	}
	if s, ok := ast.Unparen(e).(*ast.SelectorExpr); ok && s.Sel.Name == "L" && kind.Native(kind.Deref(a.typ(s.X))) == "sync.Cond" {
		a.facts.GenericCond = true
	}
}

// pointed notes that a pointer may reach the variable that e is, or is a part of.
func (a *analyser) pointed(e ast.Expr) {
	switch e := ast.Unparen(e).(type) {
	case *ast.Ident:
		if v, ok := a.l.Info.Uses[e].(*types.Var); ok && !v.IsField() {
			a.info(v).Pointed = true
		}
	case *ast.SelectorExpr:
		if !kind.IsPtr(a.typ(e.X)) {
			a.pointed(e.X)
		}
	case *ast.IndexExpr:
		if _, isArray := kind.Under(a.typ(e.X)).(*types.Array); isArray {
			a.pointed(e.X)
		}
	}
}

// address notes that the address of e is taken.
func (a *analyser) address(e ast.Expr) {
	e = ast.Unparen(e)
	if _, ok := e.(*ast.CompositeLit); ok {
		return
	}
	if kind.IsRef(a.typ(e)) {
		return
	}
	switch e := e.(type) {
	case *ast.Ident:
		if v, ok := a.l.Info.Uses[e].(*types.Var); ok {
			a.info(v).Addr = true
		}
	case *ast.SelectorExpr:
		if s := a.l.Info.Selections[e]; s != nil && s.Kind() == types.FieldVal {
			a.facts.BoxedFields[s.Obj().(*types.Var).Origin()] = true
		} else if v, ok := a.l.Info.Uses[e.Sel].(*types.Var); ok {
			a.info(v).Addr = true
		}
	case *ast.StarExpr:
	default:
		if a.unsafe[e] {
			return
		}
		t := a.typ(e)
		if _, ok := e.(*ast.IndexExpr); !ok || kind.HasParam(t) || kind.Key(t) == "uint8" {
			a.refuse(e.Pos(), "address of an element of type %s", t)
			return
		}
		a.facts.BoxedElems[kind.Key(t)] = true
	}
}

func (a *analyser) call(n *ast.CallExpr) {
	switch CalleeName(a.l.Info, n) {
	case "(*sync.WaitGroup).Go", "time.AfterFunc", "context.AfterFunc":
		a.facts.HasGo = true
	}
	if tv := a.l.Info.Types[n.Fun]; tv.IsType() && len(n.Args) == 1 {
		if b, ok := kind.Under(tv.Type).(*types.Basic); ok && b.Kind() == types.UnsafePointer {
			a.facts.Addressed[kind.Key(kind.Deref(a.typ(n.Args[0])))] = true
		}
		return
	}
	switch f := ast.Unparen(n.Fun).(type) {
	case *ast.Ident:
		if b, ok := a.l.Info.Uses[f].(*types.Builtin); ok {
			switch b.Name() {
			case "append", "cap":
				a.grows(a.typ(n.Args[0]))
				a.grows(a.typ(n))
			case "make":
				if len(n.Args) == 3 {
					a.grows(a.typ(n))
				}
			}
		}
	case *ast.SelectorExpr:
		if fn, ok := a.l.Info.Uses[f.Sel].(*types.Func); ok && fn.FullName() == "sync.NewCond" {
			if kind.Key(a.typ(n.Args[0])) != "*sync.Mutex" {
				a.facts.GenericCond = true
			}
		}
		if s, ok := ast.Unparen(f.X).(*ast.SelectorExpr); ok && (f.Sel.Name == "Lock" || f.Sel.Name == "Unlock") {
			a.okL[s] = true
		}
	}
}

// selector notes addresses that a method call takes without saying so.
func (a *analyser) selector(n *ast.SelectorExpr) {
	if n.Sel.Name == "L" && kind.Native(kind.Deref(a.typ(n.X))) == "sync.Cond" && !a.okL[n] {
		a.facts.GenericCond = true
	}
	s := a.l.Info.Selections[n]
	if s == nil || s.Kind() != types.MethodVal {
		return
	}
	fn := s.Obj().(*types.Func)
	recv := fn.Signature().Recv()
	if recv == nil || !kind.IsPtr(recv.Type()) || kind.IsIface(s.Recv()) {
		return
	}
	if !kind.IsPtr(a.typ(n.X)) {
		a.pointed(n.X)
	}
	t := kind.Deref(recv.Type())
	if kind.IsRef(t) {
		return
	}
	// a method with a pointer receiver on a type that is no struct
	path := s.Index()
	if len(path) > 1 {
		a.refuse(n.Pos(), "promoted method of a type that is no struct")
	}
	if !kind.IsPtr(a.typ(n.X)) {
		a.address(n.X)
	}
}
