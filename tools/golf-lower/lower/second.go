package lower

import (
	"go/ast"
	"go/constant"
	"go/token"
	"go/types"
)

// The second turn. Of what is left behind the calls (order.go), Go's compiler evaluates the operands of functions of its runtime
// first: of strings that are joined, compared or converted, of maps, and of what becomes a value of an interface. With them come
// literals. What is left then is read from left to right. This matters where two parts of an expression may panic.

// seconder finds whether the order matters, and evaluates what has the second turn.
type seconder struct {
	f       *fctx
	fails   bool // something that is left to the end may panic
	matters bool
	acts    bool // it evaluates
}

// second evaluates what has the second turn in an expression, if the order matters.
func (f *fctx) second(e ast.Expr) {
	f.inSecond([]ast.Expr{e}, func(s *seconder) { s.visit(e) })
}

// inSecond is second for the expressions of a list that are visited so.
func (f *fctx) inSecond(list []ast.Expr, visit func(*seconder)) {
	if !f.user() {
		return
	}
	s := &seconder{f: f}
	visit(s)
	if !s.matters {
		return
	}
	for _, e := range list {
		f.hoist(e)
	}
	s.acts, s.fails = true, false
	visit(s)
}

// now: the expression has the second turn.
func (s *seconder) now(e ast.Expr) {
	before := s.fails
	s.visit(e)
	s.fails = before
	s.keep(e)
}

// visit looks at an expression that is left to the end.
func (s *seconder) visit(e ast.Expr) {
	f := s.f
	if tv := f.p.Info.Types[e]; e == nil || tv.Value != nil || tv.IsType() || f.comesFirst(e) || f.convertedFirst(e) {
		return
	}
	if _, done := f.hoisted[e]; done {
		return
	}
	before := s.fails
	s.parts(e)
	if to, ok := f.p.targets[e]; ok && s.converts(e, f.p.subst(to)) {
		s.fails = before
		s.keep(e)
	}
}

// keep evaluates an expression that may panic.
func (s *seconder) keep(e ast.Expr) {
	if !s.f.panics(e) {
		return
	}
	s.matters = s.matters || s.fails
	if s.acts {
		s.f.keep(e)
	}
}

// converts: the value becomes one of an interface by a function of the runtime.
func (s *seconder) converts(e ast.Expr, to types.Type) bool {
	t := s.f.typeOf(e)
	if b, ok := t.(*types.Basic); ok && b.Kind() == types.UntypedNil || t == nil || !isIface(to) {
		return false
	}
	return !types.Identical(t, to) && !s.f.p.oneWord(t)
}

// parts visits the parts of an expression.
func (s *seconder) parts(e ast.Expr) {
	switch e := e.(type) {
	case *ast.ParenExpr:
		s.visit(e.X)
	case *ast.BinaryExpr:
		s.binary(e)
	case *ast.UnaryExpr:
		if lit, ok := ast.Unparen(e.X).(*ast.CompositeLit); ok && e.Op == token.AND {
			s.keep(lit)
		} else {
			s.visit(e.X)
		}
	case *ast.CompositeLit:
		s.keep(e)
	case *ast.CallExpr:
		s.conversion(e)
	case *ast.IndexExpr:
		s.index(e)
	case *ast.SelectorExpr:
		if s.f.p.Info.Selections[e] == nil {
			return
		}
		if s.f.p.Info.Selections[e].Kind() == types.MethodVal {
			s.now(e.X)
			return
		}
		s.visit(e.X)
		s.fails = s.fails || s.f.panicsItself(e)
	case *ast.StarExpr:
		s.visit(e.X)
		s.fails = true
	case *ast.TypeAssertExpr:
		s.visit(e.X)
		s.fails = true
	}
}

// binary visits the operands of an operator. Of two interfaces that are compared the second one comes first.
func (s *seconder) binary(e *ast.BinaryExpr) {
	f := s.f
	compares := isComparison(e.Op)
	switch {
	case isNil(f.p, e.X) || isNil(f.p, e.Y):
		s.visit(e.X)
		s.visit(e.Y)
	case compares && (isIface(f.typeOf(e.X)) || isIface(f.typeOf(e.Y))):
		s.matters = s.matters || f.panics(e.X) && f.panics(e.Y)
		s.now(e.Y)
		s.now(e.X)
	case isText(f.typeOf(e.X)) && !f.comparesConstant(e):
		s.now(e.X)
		s.now(e.Y)
	default:
		s.visit(e.X)
		s.visit(e.Y)
		s.fails = s.fails || f.panicsBinary(e)
	}
}

// mostBytes is the length of the longest constant whose bytes are compared without the runtime.
const mostBytes = 16

// comparesConstant: a string is compared with a constant without the runtime.
func (f *fctx) comparesConstant(e *ast.BinaryExpr) bool {
	for _, x := range []ast.Expr{e.X, e.Y} {
		v := f.p.Info.Types[x].Value
		switch {
		case v == nil || !isComparison(e.Op):
		case e.Op == token.EQL || e.Op == token.NEQ:
			return len(constant.StringVal(v)) <= mostBytes
		default:
			return constant.StringVal(v) == ""
		}
	}
	return false
}

// conversion visits the operand of a conversion.
func (s *seconder) conversion(c *ast.CallExpr) {
	if !s.f.p.Info.Types[c.Fun].IsType() {
		return
	}
	if isText(s.f.typeOf(c)) && !isText(s.f.typeOf(c.Args[0])) {
		s.now(c.Args[0])
		return
	}
	s.visit(c.Args[0])
}

// index visits the operands of an index.
func (s *seconder) index(e *ast.IndexExpr) {
	if s.f.p.isInstance(e) {
		return
	}
	if _, isMap := under(s.f.typeOf(e.X)).(*types.Map); !isMap {
		s.visit(e.X)
		s.visit(e.Index)
		s.fails = s.fails || s.f.panicsItself(e)
		return
	}
	before := s.fails
	s.visit(e.X)
	s.visit(e.Index)
	s.fails = before
	s.keep(e.X)
	s.keep(e.Index)
}

// alone is the value of an expression that stands alone.
func (f *fctx) alone(e ast.Expr) string {
	f.early(e)
	f.second(e)
	return f.expr(e)
}

// secondOfCall is second for the operands of a call whose function is known at run time alone, so that Go's compiler does not put
// its body in place of the call. The function is read behind arguments that may panic.
func (f *fctx) secondOfCall(c *ast.CallExpr, sig *types.Signature) {
	called := f.dynamic(c)
	if called == nil {
		return
	}
	n := len(c.Args)
	if sig.Variadic() && !c.Ellipsis.IsValid() {
		n = min(n, sig.Params().Len()-1)
	}
	f.inSecond(append([]ast.Expr{called}, c.Args...), func(s *seconder) {
		s.visit(called)
		fails := s.fails
		for _, a := range c.Args[:n] {
			s.visit(a)
		}
		for _, a := range c.Args[n:] {
			s.now(a)
		}
		if s.fails = fails; fails {
			for _, a := range c.Args[:n] {
				s.keep(a)
			}
		}
	})
}

// dynamic is the interface whose method a call calls, or the value that it calls unless that is a name or a literal; nil for
// another call.
func (f *fctx) dynamic(c *ast.CallExpr) ast.Expr {
	switch fun := ast.Unparen(c.Fun).(type) {
	case *ast.SelectorExpr:
		s := f.p.selectionOf(fun)
		switch {
		case s == nil:
			return nil
		case s.kind == types.FieldVal:
			return fun
		case s.kind == types.MethodVal && isIface(s.obj.(*types.Func).Signature().Recv().Type()):
			return fun.X
		}
	case *ast.IndexExpr:
		if !f.p.isInstance(fun) {
			return fun
		}
	case *ast.StarExpr:
		return fun
	}
	return nil
}
