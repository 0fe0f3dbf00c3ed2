package lower

import (
	"fmt"
	"go/ast"
	"go/token"
	"go/types"
	"slices"
)

// Late values and operands. The specification of Go has all operands and values of a, b = x, y before the first store. Go's
// compiler evaluates only those first that an earlier store may change. Each other one is evaluated at its store. What may panic
// in a value comes behind the stores before, and behind the entry that its own store makes in a map. At each store the value
// comes before what is left of the operands.

// stores are what the stores of an assignment have changed so far.
type stores struct {
	f      *fctx
	names  map[types.Object]bool // variables that only this function has
	memory bool                  // other variables, elements, and what pointers point to
	all    bool                  // a result of a function that defers
}

func (f *fctx) newStores() *stores { return &stores{f: f, names: map[types.Object]bool{}} }

// add adds a store.
func (s *stores) add(l ast.Expr) {
	id, ok := s.base(l).(*ast.Ident)
	switch {
	case !ok:
		s.memory = true
	case id.Name == "_":
	case s.f.defers && s.f.isResult(id):
		s.all = true
	case s.inMemory(id):
		s.memory = true
	default:
		s.names[s.f.p.Info.ObjectOf(id)] = true
	}
}

// inMemory: others than this function may store to a variable.
func (s *stores) inMemory(id *ast.Ident) bool {
	v, ok := s.f.p.Info.ObjectOf(id).(*types.Var)
	if !ok {
		return false
	}
	i := s.f.p.Vars[v]
	return v.Pkg() != nil && v.Parent() == v.Pkg().Scope() || s.f.caps[v] || i != nil && (i.Pointed || i.Captured && (i.Assigned || isRef(s.f.p.vtype(v))))
}

// isResult: the variable is a named result.
func (f *fctx) isResult(id *ast.Ident) bool {
	v, ok := f.p.Info.ObjectOf(id).(*types.Var)
	return ok && slices.Contains(f.named, v)
}

// base is the variable that a left side is a part of, or the expression that finds its memory.
func (s *stores) base(l ast.Expr) ast.Expr {
	switch l := ast.Unparen(l).(type) {
	case *ast.IndexExpr:
		if isArray(s.f.typeOf(l.X)) {
			return s.base(l.X)
		}
		return l
	case *ast.SelectorExpr:
		if s.f.p.Info.Selections[l] == nil {
			return l.Sel // a variable of a package
		}
		if !s.f.derefs(l) {
			return s.base(l.X)
		}
		return l
	default:
		return l
	}
}

// change: an expression may have another value behind the stores.
func (s *stores) change(e ast.Expr) bool {
	return s.all || s.f.hasPart(e, func(e ast.Expr) bool {
		if s.f.p.Info.Types[e].Value != nil {
			return false
		}
		switch e := e.(type) {
		case *ast.Ident:
			return s.names[s.f.p.Info.ObjectOf(e)] || s.memory && s.inMemory(e)
		case *ast.IndexExpr, *ast.StarExpr, *ast.CompositeLit:
			return s.memory
		case *ast.SelectorExpr:
			return s.memory && s.f.derefs(e)
		case *ast.BinaryExpr:
			return s.memory && (isComparison(e.Op) || s.f.p.isText(s.f.typeOf(e)))
		case *ast.CallExpr: // a conversion
			return s.memory && (s.f.p.isText(s.f.typeOf(e)) || s.f.p.isText(s.f.typeOf(e.Args[0])))
		case *ast.UnaryExpr:
			return s.memory && (e.Op == token.AND || e.Op == token.NOT)
		}
		return false
	})
}

// isComparison: the operator compares. Go's compiler takes it for one that reads memory.
func isComparison(op token.Token) bool {
	switch op {
	case token.EQL, token.NEQ, token.LSS, token.LEQ, token.GTR, token.GEQ:
		return true
	}
	return false
}

// derefs: the selector reads a field behind a pointer.
func (f *fctx) derefs(e *ast.SelectorExpr) bool {
	s := f.p.Info.Selections[e]
	return s != nil && (s.Indirect() || isPtr(f.typeOf(e.X)))
}

// hasPart: an expression has a part that the test holds for, apart from what has been evaluated before its statement, and from
// what Go's compiler evaluates in its turn.
func (f *fctx) hasPart(e ast.Expr, test func(ast.Expr) bool) bool {
	return f.hasAny(e, func(e ast.Expr) bool { return f.comesFirst(e) || f.convertedFirst(e) }, test)
}

// hasAny: an expression has a part that the test holds for, apart from what has been evaluated before its statement, and from
// parts that are left out.
func (f *fctx) hasAny(e ast.Expr, without, test func(ast.Expr) bool) bool {
	found := false
	ast.Inspect(e, func(n ast.Node) bool {
		e, ok := n.(ast.Expr)
		if !ok || found {
			return !found
		}
		if _, done := f.hoisted[e]; done || without(e) {
			return false
		}
		if _, isFunc := e.(*ast.FuncLit); isFunc || f.p.Info.Types[e].IsType() {
			return false
		}
		found = test(e)
		return !found
	})
	return found
}

// panics: an expression may panic in a part that Go's compiler leaves in its place.
func (f *fctx) panics(e ast.Expr) bool { return f.hasPart(e, f.panicsItself) }

// mayPanic: an expression may panic in any part.
func (f *fctx) mayPanic(e ast.Expr) bool {
	return f.hasAny(e, func(ast.Expr) bool { return false }, func(e ast.Expr) bool {
		switch e := e.(type) {
		case *ast.SliceExpr:
			return e.Low != nil || e.High != nil || isPtr(f.typeOf(e.X))
		case *ast.CallExpr:
			return f.p.Info.Types[e.Fun].IsValue()
		}
		return f.panicsItself(e)
	})
}

// panicsItself: an operation may panic, apart from its operands.
func (f *fctx) panicsItself(e ast.Expr) bool {
	switch e := e.(type) {
	case *ast.IndexExpr:
		return !f.p.isInstance(e) && f.panicsIndex(e)
	case *ast.StarExpr, *ast.TypeAssertExpr:
		return true
	case *ast.SelectorExpr:
		return f.derefs(e)
	case *ast.BinaryExpr:
		return f.panicsBinary(e)
	}
	return false
}

// panicsBinary: the operator divides by what may be zero, or shifts by what may be negative.
func (f *fctx) panicsBinary(e *ast.BinaryExpr) bool {
	if f.p.Info.Types[e.Y].Value != nil {
		return false
	}
	switch e.Op {
	case token.QUO, token.REM:
		return !isFloat(f.typeOf(e))
	case token.SHL, token.SHR:
		return !isUnsigned(f.typeOf(e.Y))
	}
	return false
}

// isUnsigned: the values of the type are unsigned integers.
func isUnsigned(t types.Type) bool {
	b, ok := under(t).(*types.Basic)
	return ok && b.Info()&types.IsUnsigned != 0
}

// panicsIndex: the index may be a wrong one.
func (f *fctx) panicsIndex(e *ast.IndexExpr) bool {
	switch under(f.typeOf(e.X)).(type) {
	case *types.Map:
		return false
	case *types.Array:
		return f.p.Info.Types[e.Index].Value == nil
	}
	return true
}

// panicsBefore: an operand of a left side may panic, apart from the store itself.
func (f *fctx) panicsBefore(l ast.Expr) bool {
	switch l := ast.Unparen(l).(type) {
	case *ast.IndexExpr:
		if isArray(f.typeOf(l.X)) {
			return f.panicsBefore(l.X) || f.panics(l.Index)
		}
		return f.panics(l.X) || f.panics(l.Index)
	case *ast.SelectorExpr:
		if f.derefs(l) {
			return f.panics(l.X)
		}
		return f.panicsBefore(l.X)
	case *ast.StarExpr:
		return f.panics(l.X)
	}
	return false
}

// mayBeLate: a store has an operand or a value that may panic late.
func (f *fctx) mayBeLate(left, right []ast.Expr) bool {
	if len(right) == 1 {
		return len(left) == 1 && f.valueFirst(left[0], right[0])
	}
	return len(right) > 1 && (slices.ContainsFunc(left, f.panicsBefore) || slices.ContainsFunc(right, f.panics))
}

// valueFirst: an operand of a left side may panic, and so may the value. Go's compiler evaluates the value first.
func (f *fctx) valueFirst(l, r ast.Expr) bool { return f.panicsBefore(l) && f.panics(r) }

// copyOperands evaluates those operands of a left side that Go's compiler copies before it evaluates the value: what is no
// variable, no field, no element, and not what a pointer points to. Only what may panic matters.
func (f *fctx) copyOperands(l ast.Expr) {
	if !f.panics(l) {
		return
	}
	switch e := ast.Unparen(l).(type) {
	case *ast.SelectorExpr:
		f.copyOperands(e.X)
	case *ast.StarExpr:
		f.copyOperands(e.X)
	case *ast.IndexExpr:
		if _, isMap := under(f.typeOf(e.X)).(*types.Map); isMap {
			f.keep(l)
			return
		}
		f.copyOperands(e.X)
		f.copyOperands(e.Index)
	default:
		f.keep(l)
	}
}

// saveOperands evaluates the operands of a left side that the stores so far may have changed.
func (s *stores) saveOperands(l ast.Expr) {
	save := func(e ast.Expr) {
		if s.change(e) {
			s.f.keep(e)
		}
	}
	switch l := ast.Unparen(l).(type) {
	case *ast.IndexExpr:
		if isArray(s.f.typeOf(l.X)) {
			save(l.Index)
			s.saveOperands(l.X)
			return
		}
		save(l.X)
		save(l.Index)
	case *ast.SelectorExpr:
		if s.f.derefs(l) {
			save(l.X)
		} else if s.f.p.Info.Selections[l] != nil {
			s.saveOperands(l.X)
		}
	case *ast.StarExpr:
		save(l.X)
	}
}

// promotes: a left side is a field behind an embedded pointer of a variable, which is not copied for it.
func (f *fctx) promotes(l ast.Expr) bool {
	switch l := ast.Unparen(l).(type) {
	case *ast.IndexExpr:
		return isArray(f.typeOf(l.X)) && f.promotes(l.X)
	case *ast.SelectorExpr:
		return f.derefs(l) && !isPtr(f.typeOf(l.X)) || f.p.Info.Selections[l] != nil && !f.derefs(l) && f.promotes(l.X)
	}
	return false
}

// isMapIndex is a left side that is an entry of a map, else nil.
func (f *fctx) isMapIndex(l ast.Expr) (*ast.IndexExpr, *types.Map) {
	if ix, ok := ast.Unparen(l).(*ast.IndexExpr); ok {
		if m, ok := under(f.typeOf(ix.X)).(*types.Map); ok {
			return ix, m
		}
	}
	return nil, nil
}

// mapEntry is an entry of a map whose operands have been evaluated.
type mapEntry struct {
	f       *fctx
	m       *types.Map
	x, key  string
	checked bool // it has been looked at whether the map has entries
}

// entry evaluates the operands of an entry of a map.
func (f *fctx) entry(ix *ast.IndexExpr, m *types.Map) *mapEntry {
	xs := f.ordered(func() string { return f.expr(ix.X) }, func() string { return f.rval(ix.Index, m.Key()) })
	for i := range xs {
		xs[i] = f.pin(xs[i])
	}
	return &mapEntry{f: f, m: m, x: xs[0], key: xs[1]}
}

// check raises the errors of a map that is nil and of a key that has no hash.
func (e *mapEntry) check() {
	if !e.checked {
		e.checked = true
		e.f.runtimeError(e.x+" == nil", "assignment to entry in nil map")
		e.key = e.f.hashable(e.m, e.key, "")
	}
}

// get is the value of now.
func (e *mapEntry) get() string {
	return fmt.Sprintf("%s(%s, %s)", e.f.p.mapFunc(e.m, "get"), e.x, e.key)
}

// make makes the entry, if there is none: Go does so before it evaluates a late value.
func (e *mapEntry) make() {
	e.check()
	e.put(e.get())
}

// store stores a value.
func (e *mapEntry) store(x string) {
	e.check()
	e.put(x)
}

func (e *mapEntry) put(x string) {
	e.f.emit("%s(%s, %s, %s)", e.f.p.mapFunc(e.m, "put"), e.x, e.key, x)
}
