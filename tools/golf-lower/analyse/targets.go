package analyse

import (
	"go/ast"
	"go/token"
	"go/types"
)

// targets finds the operands of a body that become values of interfaces.
type targets struct {
	info *types.Info
	note func(e ast.Expr, to types.Type)
}

// Targets notes each expression in a node whose value is assigned, passed, sent, returned, compared or converted as a value of
// an interface, or of a type parameter, with that type. results are those of the function whose body the node is. Function
// literals in it are left out.
func Targets(info *types.Info, n ast.Node, results *types.Tuple, note func(e ast.Expr, to types.Type)) {
	t := &targets{info, note}
	ast.Inspect(n, func(n ast.Node) bool {
		switch n := n.(type) {
		case *ast.FuncLit:
			return false
		case *ast.ReturnStmt:
			t.results(n, results)
		case ast.Stmt:
			t.statement(n)
		case *ast.ValueSpec:
			t.assign(names(n.Names), n.Values)
		case ast.Expr:
			t.expression(n)
		}
		return true
	})
}

// names are identifiers as expressions.
func names(list []*ast.Ident) []ast.Expr {
	var all []ast.Expr
	for _, id := range list {
		all = append(all, id)
	}
	return all
}

// to notes that an expression becomes a value of a type.
func (t *targets) to(e ast.Expr, to types.Type) {
	if e != nil && to != nil && types.IsInterface(to) {
		t.note(e, to)
	}
}

func (t *targets) results(s *ast.ReturnStmt, results *types.Tuple) {
	if results == nil || len(s.Results) != results.Len() {
		return
	}
	for i, e := range s.Results {
		t.to(e, results.At(i).Type())
	}
}

func (t *targets) statement(s ast.Stmt) {
	switch s := s.(type) {
	case *ast.AssignStmt:
		t.assign(s.Lhs, s.Rhs)
	case *ast.SendStmt:
		if c, ok := core[*types.Chan](t.info.TypeOf(s.Chan)); ok {
			t.to(s.Value, c.Elem())
		}
	case *ast.SwitchStmt:
		for _, c := range s.Body.List {
			for _, e := range c.(*ast.CaseClause).List {
				if s.Tag != nil {
					t.compared(s.Tag, e)
				}
			}
		}
	}
}

// assign notes the values that are assigned one by one.
func (t *targets) assign(left, right []ast.Expr) {
	if len(left) != len(right) {
		return
	}
	for i, l := range left {
		t.to(right[i], t.info.TypeOf(l))
	}
}

// compared notes the operand of a comparison that is compared as a value of an interface.
func (t *targets) compared(x, y ast.Expr) {
	t.to(x, t.info.TypeOf(y))
	t.to(y, t.info.TypeOf(x))
}

func (t *targets) expression(e ast.Expr) {
	switch e := e.(type) {
	case *ast.BinaryExpr:
		if e.Op == token.EQL || e.Op == token.NEQ {
			t.compared(e.X, e.Y)
		}
	case *ast.IndexExpr:
		if m, ok := core[*types.Map](t.info.TypeOf(e.X)); ok {
			t.to(e.Index, m.Key())
		}
	case *ast.CompositeLit:
		t.literal(e)
	case *ast.CallExpr:
		t.call(e)
	}
}

func (t *targets) literal(lit *ast.CompositeLit) {
	typ := t.info.TypeOf(lit)
	if p, ok := core[*types.Pointer](typ); ok { // the type of an element is left out
		typ = p.Elem()
	}
	for i, e := range lit.Elts {
		kv, keyed := e.(*ast.KeyValueExpr)
		if keyed {
			e = kv.Value
		}
		switch u := typ.Underlying().(type) {
		case *types.Map:
			t.to(kv.Key, u.Key())
			t.to(e, u.Elem())
		case *types.Struct:
			if id, ok := fieldName(kv, keyed); ok {
				t.to(e, t.info.TypeOf(id))
			} else if i < u.NumFields() {
				t.to(e, u.Field(i).Type())
			}
		case interface{ Elem() types.Type }:
			t.to(e, u.Elem())
		}
	}
}

// fieldName is the name of the field of an element of a struct.
func fieldName(kv *ast.KeyValueExpr, keyed bool) (*ast.Ident, bool) {
	if !keyed {
		return nil, false
	}
	id, ok := kv.Key.(*ast.Ident)
	return id, ok
}

// call notes the arguments of a call, and the operand of a conversion.
func (t *targets) call(c *ast.CallExpr) {
	fun := t.info.Types[c.Fun]
	switch sig, ok := core[*types.Signature](fun.Type); {
	case fun.IsType():
		t.to(c.Args[0], fun.Type)
	case ok: // also a builtin, whose type is that of this call
		t.arguments(c, sig)
	}
}

func (t *targets) arguments(c *ast.CallExpr, sig *types.Signature) {
	n := sig.Params().Len()
	for i, a := range c.Args {
		switch {
		case sig.Variadic() && i >= n-1 && !c.Ellipsis.IsValid():
			if s, ok := core[*types.Slice](sig.Params().At(n - 1).Type()); ok {
				t.to(a, s.Elem())
			}
		case i < n:
			t.to(a, sig.Params().At(i).Type())
		}
	}
}

// core is the underlying type, if it is of this kind.
func core[T types.Type](t types.Type) (T, bool) {
	var none T
	if t == nil {
		return none, false
	}
	u, ok := t.Underlying().(T)
	return u, ok
}
