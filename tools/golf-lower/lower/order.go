package lower

import (
	"go/ast"
	"go/token"
	"go/types"
)

// The order of evaluation. The specification of Go orders calls and receives, and leaves open when a variable beside them is
// read. Go's compiler takes the calls of a statement first, from left to right, with some other operations; what is left is
// read behind them. In f(x.n, g()) it reads x.n after the call of g. So does what is lowered: if something that a call may
// change, or that may fail, comes before a call, the calls are evaluated into variables.

// early evaluates what Go's compiler takes first in a list of expressions, if the order matters.
func (f *fctx) early(list ...ast.Expr) {
	o := &orderer{f: f}
	for _, e := range list {
		o.visit(e)
	}
	if o.matters {
		for _, e := range list {
			f.hoist(e)
		}
	}
}

// earlyIn is early for an assignment: the operands of the left sides come first.
func (f *fctx) earlyIn(left, right []ast.Expr) {
	o := &orderer{f: f}
	for _, l := range left {
		o.place(l)
	}
	for _, e := range right {
		o.visit(e)
	}
	if o.matters || f.mayBeLate(left, right) {
		for _, l := range left {
			f.hoistOperands(l)
		}
		for _, e := range right {
			f.hoist(e)
		}
	}
}

// earlyOperands is early for the operands of an operation that may have two values.
func (f *fctx) earlyOperands(e ast.Expr) {
	switch e := ast.Unparen(e).(type) {
	case *ast.UnaryExpr:
		f.early(e.X)
	case *ast.IndexExpr:
		f.early(e.X, e.Index)
	case *ast.TypeAssertExpr:
		f.early(e.X)
	case *ast.SliceExpr:
		var list []ast.Expr
		for _, x := range []ast.Expr{e.X, e.Low, e.High, e.Max} {
			if x != nil {
				list = append(list, x)
			}
		}
		f.early(list...)
	case *ast.CallExpr:
		if f.p.Info.Types[e.Fun].IsType() {
			f.early(e.Args[0])
		}
	}
}

// orderer finds whether the order matters: whether a call comes behind something that it may change, or that may panic, or
// whether something else that comes first and may panic does.
type orderer struct {
	f       *fctx
	open    bool // something of this kind has been seen, and is read behind the calls
	fails   bool // it may panic
	matters bool
}

// inTurn: the node is evaluated in its turn, so that what it reads is not open behind it.
func (o *orderer) inTurn(acts bool, visit func()) {
	open, fails := o.open, o.fails
	if acts && open {
		o.matters = true
	}
	visit()
	o.open, o.fails = open, fails
}

// behind notes that an expression is evaluated behind the calls.
func (o *orderer) behind(e ast.Expr) {
	o.open = true
	o.fails = o.fails || o.f.panicsItself(e)
}

// first notes that an expression comes first.
func (o *orderer) first(e ast.Expr) {
	if o.fails && o.f.mayPanic(e) {
		o.matters = true
	}
}

func (o *orderer) visit(e ast.Expr) {
	p := o.f.p
	if tv := p.Info.Types[e]; e == nil || tv.Value != nil || tv.IsType() {
		return
	}
	if o.f.comesFirst(e) || o.f.convertedFirst(e) {
		o.first(e)
	}
	if o.f.convertedFirst(e) {
		o.inTurn(false, func() { o.parts(e) })
		return
	}
	o.parts(e)
}

// parts visits the parts of an expression, and what it reads itself.
func (o *orderer) parts(e ast.Expr) {
	p := o.f.p
	switch e := e.(type) {
	case *ast.ParenExpr:
		o.visit(e.X)
	case *ast.Ident:
		o.open = o.open || o.f.changeable(e)
	case *ast.SelectorExpr:
		if p.Info.Selections[e] == nil {
			o.open = o.open || o.f.changeable(e.Sel)
			return
		}
		o.visit(e.X)
		if p.Info.Selections[e].Kind() == types.FieldVal || o.copiesReceiver(e) {
			o.behind(e)
		}
	case *ast.IndexExpr:
		if p.isInstance(e) {
			return
		}
		if o.f.byNewString(e) {
			o.inTurn(false, func() { o.visits(e.X, e.Index) })
			return
		}
		o.visit(e.X)
		o.index(e)
		o.behind(e)
	case *ast.SliceExpr:
		o.inTurn(false, func() { o.visits(e.X, e.Low, e.High, e.Max) })
	case *ast.StarExpr:
		o.visit(e.X)
		o.behind(e)
	case *ast.UnaryExpr:
		o.unary(e)
	case *ast.BinaryExpr:
		o.binary(e)
	case *ast.TypeAssertExpr:
		if p.oneWord(o.f.typeOf(e)) {
			o.visit(e.X)
			o.behind(e)
			return
		}
		o.inTurn(false, func() { o.visit(e.X) })
	case *ast.CompositeLit:
		o.literal(e)
	case *ast.CallExpr:
		o.call(e)
	}
}

// index visits an index, or the key of a map.
func (o *orderer) index(e *ast.IndexExpr) {
	if o.f.keyFirst(e) {
		o.first(e.Index)
		o.inTurn(false, func() { o.visit(e.Index) })
	} else {
		o.visit(e.Index)
	}
}

// copiesReceiver: the selector is a method that gets a copy of what a pointer points to. Go reads it behind the calls.
func (o *orderer) copiesReceiver(e *ast.SelectorExpr) bool {
	s := o.f.p.selectionOf(e)
	if s.kind != types.MethodVal {
		return false
	}
	recv := s.obj.(*types.Func).Signature().Recv().Type()
	return !isPtr(recv) && !isIface(recv) && (isPtr(o.f.typeOf(e.X)) || len(s.index) > 1)
}

func (o *orderer) visits(list ...ast.Expr) {
	for _, e := range list {
		if e != nil {
			o.visit(e)
		}
	}
}

func (o *orderer) unary(e *ast.UnaryExpr) {
	switch e.Op {
	case token.ARROW:
		o.inTurn(true, func() { o.visit(e.X) })
	case token.AND:
		if _, ok := ast.Unparen(e.X).(*ast.CompositeLit); ok {
			o.visit(e.X)
			return
		}
		o.place(e.X)
		if o.f.panics(e.X) {
			o.open, o.fails = true, true
		}
	default:
		o.visit(e.X)
	}
}

func (o *orderer) binary(e *ast.BinaryExpr) {
	switch e.Op {
	case token.LAND, token.LOR:
		o.inTurn(o.f.hasCall(e), func() { o.visit(e.X) })
	default:
		for _, x := range []ast.Expr{e.X, e.Y} {
			if o.f.comparedFirst(e, x) {
				o.first(x)
				o.inTurn(false, func() { o.visit(x) })
			} else {
				o.visit(x)
			}
		}
		if o.f.panicsBinary(e) {
			o.behind(e)
		}
	}
}

func (o *orderer) literal(e *ast.CompositeLit) {
	_, isMap := under(deref(o.f.typeOf(e))).(*types.Map)
	visit := func() {
		for _, el := range e.Elts {
			if kv, ok := el.(*ast.KeyValueExpr); ok {
				el = kv.Value
			}
			o.visit(el)
		}
	}
	if isMap { // its elements are stored one by one
		o.inTurn(o.f.hasCall(e), func() {})
	} else {
		visit()
	}
}

func (o *orderer) call(e *ast.CallExpr) {
	p := o.f.p
	switch b := p.isBuiltin(e); {
	case o.f.copiesText(e):
		o.inTurn(false, func() { o.visit(e.Args[0]) })
	case p.Info.Types[e.Fun].IsType():
		o.visit(e.Args[0])
	case b != "":
		acts := b != "len" && b != "cap" && b != "min" && b != "max" && b != "make" && b != "new"
		o.inTurn(acts, func() { o.visits(e.Args...) })
	default:
		o.inTurn(true, func() {}) // its operands are a list of their own
	}
}

// place visits the operands of a left side, or of &.
func (o *orderer) place(l ast.Expr) {
	switch l := ast.Unparen(l).(type) {
	case *ast.IndexExpr:
		if isArray(o.f.typeOf(l.X)) {
			o.place(l.X)
		} else {
			o.visit(l.X)
		}
		o.index(l)
	case *ast.SelectorExpr:
		if o.f.p.Info.Selections[l] == nil {
			return
		}
		if isPtr(o.f.typeOf(l.X)) {
			o.visit(l.X)
		} else {
			o.place(l.X)
		}
	case *ast.StarExpr:
		o.visit(l.X)
	}
}

// isInstance: the expression is a generic function with its type arguments.
func (p *prog) isInstance(e *ast.IndexExpr) bool {
	_, ok := p.Info.Uses[identOf(generic(e))].(*types.Func)
	return ok
}

// oneWord: an interface holds a value of the type as its pointer. Go's compiler asserts such a type behind the calls.
func (p *prog) oneWord(t types.Type) bool {
	switch u := under(t).(type) {
	case *types.Pointer, *types.Chan, *types.Map, *types.Signature:
		return true
	case *types.Basic:
		return u.Kind() == types.UnsafePointer
	case *types.Struct:
		return u.NumFields() == 1 && p.oneWord(u.Field(0).Type())
	case *types.Array:
		return u.Len() == 1 && p.oneWord(u.Elem())
	}
	return false
}

// changeable: a call may change the variable.
func (f *fctx) changeable(id *ast.Ident) bool {
	v, ok := f.p.Info.Uses[id].(*types.Var)
	if !ok {
		return false
	}
	if v.Pkg() != nil && v.Parent() == v.Pkg().Scope() {
		return true
	}
	return isRef(f.p.vtype(v)) || f.p.isBoxed(v)
}

// hoist evaluates the operations of an expression that come first.
func (f *fctx) hoist(e ast.Expr) {
	p := f.p
	if tv := p.Info.Types[e]; e == nil || tv.Value != nil || tv.IsType() {
		return
	}
	if f.comesFirst(e) {
		f.earlyOperands(e)
		f.hoistValue(e)
		return
	}
	f.hoistParts(e)
	if f.convertedFirst(e) {
		f.hoistValue(e)
	}
}

// hoistValue evaluates an expression, if a call may change what it reads, or if it may panic.
func (f *fctx) hoistValue(e ast.Expr) {
	if _, done := f.hoisted[e]; done || !f.hasCall(e) && !f.reads(e) && !mayFail(e) {
		return
	}
	f.keep(e)
}

// keep evaluates an expression now, and keeps its value for its place.
func (f *fctx) keep(e ast.Expr) {
	if _, done := f.hoisted[e]; done || f.p.Info.Types[e].Value != nil {
		return
	}
	x := f.rval(e, f.typeOf(e))
	if !isLiteral(x) {
		x = f.temp(x)
	}
	if f.hoisted == nil {
		f.hoisted = map[ast.Expr]string{}
	}
	f.hoisted[e] = x
}

// hoistIndex is hoist for an index, or for the key of a map.
func (f *fctx) hoistIndex(e *ast.IndexExpr) {
	f.hoist(e.Index)
	if f.keyFirst(e) {
		f.hoistValue(e.Index)
	}
}

// hoistParts evaluates the operations in an expression that come first.
func (f *fctx) hoistParts(e ast.Expr) {
	p := f.p
	switch e := e.(type) {
	case *ast.ParenExpr:
		f.hoist(e.X)
	case *ast.SelectorExpr:
		if p.Info.Selections[e] != nil {
			f.hoist(e.X)
		}
	case *ast.IndexExpr:
		if !p.isInstance(e) {
			f.hoist(e.X)
			f.hoistIndex(e)
		}
	case *ast.StarExpr:
		f.hoist(e.X)
	case *ast.UnaryExpr:
		if e.Op == token.AND {
			f.hoistOperands(e.X)
		} else {
			f.hoist(e.X)
		}
	case *ast.BinaryExpr:
		for _, x := range []ast.Expr{e.X, e.Y} {
			f.hoist(x)
			if f.comparedFirst(e, x) {
				f.hoistValue(x)
			}
		}
	case *ast.TypeAssertExpr:
		f.hoist(e.X)
	case *ast.CompositeLit:
		for _, el := range e.Elts {
			if kv, ok := el.(*ast.KeyValueExpr); ok {
				el = kv.Value
			}
			f.hoist(el)
		}
	case *ast.CallExpr:
		if p.Info.Types[e.Fun].IsType() {
			f.hoist(e.Args[0])
		}
	}
}

// hoistOperands is hoist for a left side, or for what & is of.
func (f *fctx) hoistOperands(l ast.Expr) {
	switch l := ast.Unparen(l).(type) {
	case *ast.CompositeLit:
		f.hoist(l)
	case *ast.IndexExpr:
		if isArray(f.typeOf(l.X)) {
			f.hoistOperands(l.X)
		} else {
			f.hoist(l.X)
		}
		f.hoistIndex(l)
	case *ast.SelectorExpr:
		if f.p.Info.Selections[l] == nil {
			return
		}
		if isPtr(f.typeOf(l.X)) {
			f.hoist(l.X)
		} else {
			f.hoistOperands(l.X)
		}
	case *ast.StarExpr:
		f.hoist(l.X)
	}
}

// comesFirst: Go's compiler evaluates the operation in its turn, before what is read.
func (f *fctx) comesFirst(e ast.Expr) bool {
	p := f.p
	switch e := e.(type) {
	case *ast.SliceExpr:
		return true
	case *ast.IndexExpr:
		return f.byNewString(e)
	case *ast.UnaryExpr:
		return e.Op == token.ARROW
	case *ast.BinaryExpr:
		return e.Op == token.LAND || e.Op == token.LOR
	case *ast.TypeAssertExpr:
		return !p.oneWord(f.typeOf(e))
	case *ast.CompositeLit:
		_, isMap := under(deref(f.typeOf(e))).(*types.Map)
		return isMap
	case *ast.CallExpr:
		if tup, ok := f.typeOf(e).(*types.Tuple); ok && tup.Len() != 1 {
			return false
		}
		return !p.Info.Types[e.Fun].IsType() || f.copiesText(e)
	}
	return false
}

// mayFail: the expression has an operation that may panic, apart from those that read memory.
func mayFail(e ast.Expr) bool {
	found := false
	ast.Inspect(e, func(n ast.Node) bool {
		switch n := n.(type) {
		case *ast.FuncLit:
			return false
		case *ast.SliceExpr, *ast.TypeAssertExpr:
			found = true
		case *ast.BinaryExpr:
			found = found || n.Op == token.QUO || n.Op == token.REM || n.Op == token.SHL || n.Op == token.SHR
		}
		return !found
	})
	return found
}

// reads: the expression reads something that a call may change.
func (f *fctx) reads(e ast.Expr) bool {
	found := false
	ast.Inspect(e, func(n ast.Node) bool {
		switch n := n.(type) {
		case *ast.FuncLit:
			return false
		case *ast.Ident:
			found = found || f.changeable(n)
		case *ast.SelectorExpr, *ast.IndexExpr, *ast.StarExpr:
			found = true
		}
		return !found
	})
	return found
}
