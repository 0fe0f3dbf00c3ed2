package origin

import (
	"go/ast"
	"go/token"
	"go/types"
	"slices"
	"strings"

	"golflower/analyse"
)

// functions notes the functions of the files, and those that are values.
func (f *Finder) functions(n ast.Node) {
	switch n := n.(type) {
	case *ast.FuncDecl:
		fn, ok := f.info.Defs[n.Name].(*types.Func)
		if !ok || n.Body == nil {
			return
		}
		f.bodies[fn] = true
		f.noteParams(fn.Signature())
		if fn.Signature().Recv() != nil {
			f.methods[fn.Name()] = append(f.methods[fn.Name()], fn.Signature())
		}
	case *ast.FuncLit:
		if sig := f.signature(n); sig != nil {
			f.isValue(sig, sig)
		}
	case *ast.Ident:
		fn, ok := f.info.Uses[n].(*types.Func)
		if !ok {
			return
		}
		t := types.Type(fn.Signature())
		if inst, ok := f.info.Instances[n]; ok {
			t = inst.Type
		}
		f.isValue(fn.Origin().Signature(), t)
	}
}

// isValue notes a function that may be a value of a type.
func (f *Finder) isValue(sig *types.Signature, t types.Type) {
	f.noteParams(sig)
	t = withoutReceiver(t)
	if !slices.ContainsFunc(f.values, func(v value) bool { return v.sig == sig && types.Identical(v.t, t) }) {
		f.values = append(f.values, value{sig, t})
	}
}

// withoutReceiver is the type of a method as a value.
func withoutReceiver(t types.Type) types.Type {
	sig, ok := t.(*types.Signature)
	if !ok || sig.Recv() == nil {
		return t
	}
	return types.NewSignatureType(nil, nil, nil, sig.Params(), sig.Results(), sig.Variadic())
}

func (f *Finder) noteParams(sig *types.Signature) {
	for i := range sig.Params().Len() {
		f.params[sig.Params().At(i)] = true
	}
	if r := sig.Recv(); r != nil {
		f.params[r] = true
	}
}

// assignments notes what a node assigns to variables.
func (f *Finder) assignments(n ast.Node) {
	switch n := n.(type) {
	case *ast.AssignStmt:
		f.assignAll(n.Lhs, n.Rhs)
	case *ast.ValueSpec:
		var left []ast.Expr
		for _, id := range n.Names {
			left = append(left, id)
		}
		f.assignAll(left, n.Values)
	case *ast.RangeStmt:
		if n.Value != nil {
			f.assign(n.Value, n.X, 1)
		} else if _, ok := typeOf[*types.Chan](f.info, n.X); ok && n.Key != nil {
			f.assign(n.Key, n.X, 1)
		}
	case *ast.SendStmt:
		if o, level := f.base(n.Chan); o != nil {
			f.add(o, level+1, n.Value, 0)
		}
	case *ast.CompositeLit:
		f.fields(n)
	case *ast.CallExpr:
		f.arguments(n)
	case *ast.FuncDecl:
		if fn, ok := f.info.Defs[n.Name].(*types.Func); ok && n.Body != nil {
			f.returns(n.Body, fn.Signature())
		}
	case *ast.FuncLit:
		if sig := f.signature(n); sig != nil {
			f.returns(n.Body, sig)
		}
	}
}

// typeOf is the type of an expression, if it is of this kind.
func typeOf[T types.Type](info *types.Info, e ast.Expr) (T, bool) {
	var none T
	t := info.TypeOf(e)
	if t == nil {
		return none, false
	}
	u, ok := t.Underlying().(T)
	return u, ok
}

// assignAll notes an assignment of several values. Of a call with several results each may go to each variable.
func (f *Finder) assignAll(left, right []ast.Expr) {
	for i, l := range left {
		switch {
		case len(right) == len(left):
			f.assign(l, right[i], 0)
		case len(right) == 1 && i == 0:
			f.assign(l, right[0], 0)
		case len(right) == 1:
			if c, ok := ast.Unparen(right[0]).(*ast.CallExpr); ok {
				f.assign(l, c, 0)
			}
		}
	}
}

// assign notes that a place gets the value of an expression, or an element of it.
func (f *Finder) assign(left, right ast.Expr, deeper int) {
	if o, level := f.base(left); o != nil {
		f.add(o, level, right, deeper)
	}
}

func (f *Finder) add(o types.Object, level int, e ast.Expr, deeper int) {
	o = declared(o)
	f.sources[o] = append(f.sources[o], source{level, e, deeper})
}

// base is the variable or the field that a place is in, and how many levels deeper the place is.
func (f *Finder) base(e ast.Expr) (types.Object, int) {
	switch x := ast.Unparen(e).(type) {
	case *ast.Ident:
		return f.info.ObjectOf(x), 0
	case *ast.SelectorExpr:
		return f.info.ObjectOf(x.Sel), 0
	case *ast.StarExpr:
		return f.base(x.X)
	case *ast.IndexExpr:
		o, level := f.base(x.X)
		return o, level + 1
	}
	return nil, 0
}

// fields notes what a literal of a struct gives to the fields.
func (f *Finder) fields(lit *ast.CompositeLit) {
	t := f.info.TypeOf(lit)
	if t == nil {
		return
	}
	if p, ok := t.Underlying().(*types.Pointer); ok { // the type of an element is left out
		t = p.Elem()
	}
	st, ok := t.Underlying().(*types.Struct)
	if !ok {
		return
	}
	for i, e := range lit.Elts {
		if kv, ok := e.(*ast.KeyValueExpr); ok {
			if id, ok := kv.Key.(*ast.Ident); ok {
				f.add(f.info.ObjectOf(id), 0, kv.Value, 0)
			}
		} else if i < st.NumFields() {
			f.add(st.Field(i), 0, e, 0)
		}
	}
}

// arguments notes what a call gives to parameters, and to the receiver.
func (f *Finder) arguments(c *ast.CallExpr) {
	if f.info.Types[c.Fun].IsType() {
		return
	}
	fn := analyse.Callee(f.info, c)
	for _, sig := range f.called(c, fn) {
		f.give(sig, c.Args)
		sel, ok := analyse.Generic(c.Fun).(*ast.SelectorExpr)
		switch recv := sig.Recv(); {
		case recv == nil || !ok:
		case fn == nil || isInterface(fn):
			f.add(recv, 0, nil, 0)
		default:
			f.add(recv, 0, f.pointer(sel.X), 0)
		}
	}
}

// pointer is an expression, or its address if it is no pointer.
func (f *Finder) pointer(e ast.Expr) ast.Expr {
	if _, ok := typeOf[*types.Pointer](f.info, e); ok {
		return e
	}
	return &ast.UnaryExpr{OpPos: e.Pos(), Op: token.AND, X: e}
}

// give notes what parameters get.
func (f *Finder) give(sig *types.Signature, args []ast.Expr) {
	n := sig.Params().Len()
	for i, a := range args {
		switch {
		case sig.Variadic() && i >= n-1:
			f.add(sig.Params().At(n-1), 1, a, 0)
		case i < n:
			f.add(sig.Params().At(i), 0, a, 0)
		}
	}
}

// returns notes what a function returns.
func (f *Finder) returns(body *ast.BlockStmt, sig *types.Signature) {
	ast.Inspect(body, func(n ast.Node) bool {
		switch n := n.(type) {
		case *ast.FuncLit:
			return false
		case *ast.ReturnStmt:
			for i, e := range n.Results {
				if i < sig.Results().Len() {
					f.add(sig.Results().At(i), 0, e, 0)
				}
			}
		}
		return true
	})
}

// note notes the operands of a statement that can block, and of the statements in its header.
func (f *Finder) note(n ast.Node) {
	s, ok := n.(ast.Stmt)
	if !ok {
		return
	}
	var list []operand
	add := func(kind string, e ast.Expr) { list = append(list, operand{kind, e}) }
	switch s := s.(type) {
	case *ast.BlockStmt, *ast.CaseClause, *ast.CommClause, *ast.LabeledStmt:
		return
	case *ast.SelectStmt:
		f.selected(s, add)
	case *ast.RangeStmt:
		if _, ok := typeOf[*types.Chan](f.info, s.X); ok {
			add("chan receive", s.X)
		}
	case *ast.GoStmt, *ast.DeferStmt:
		return
	case *ast.SendStmt, *ast.ExprStmt, *ast.AssignStmt, *ast.ReturnStmt, *ast.DeclStmt:
		f.simple = append(f.simple, s)
	}
	ast.Inspect(s, func(n ast.Node) bool {
		switch n := n.(type) {
		case *ast.FuncLit, *ast.BlockStmt:
			return false
		case *ast.IfStmt:
			return n == s // an else has an operand of its own
		case *ast.SendStmt:
			add("chan send", n.Chan)
		case *ast.UnaryExpr:
			if n.Op == token.ARROW {
				add("chan receive", n.X)
			}
		case *ast.CallExpr:
			f.locked(n, add)
		}
		return true
	})
	if len(list) > 0 {
		f.waits[s.Pos()] = list
	}
}

// selected adds the channels of a select.
func (f *Finder) selected(s *ast.SelectStmt, add func(string, ast.Expr)) {
	for _, c := range s.Body.List {
		switch m := c.(*ast.CommClause).Comm.(type) {
		case *ast.SendStmt:
			add("select", m.Chan)
		case *ast.ExprStmt:
			add("select", ast.Unparen(m.X).(*ast.UnaryExpr).X)
		case *ast.AssignStmt:
			add("select", ast.Unparen(m.Rhs[0]).(*ast.UnaryExpr).X)
		}
	}
}

// locked adds what a method of sync waits on.
func (f *Finder) locked(c *ast.CallExpr, add func(string, ast.Expr)) {
	sel, ok := ast.Unparen(c.Fun).(*ast.SelectorExpr)
	fn := analyse.Callee(f.info, c)
	if !ok || fn == nil || fn.Pkg() == nil || fn.Pkg().Path() != "sync" {
		return
	}
	name := strings.NewReplacer("(", "", ")", "", "*", "").Replace(fn.FullName())
	switch name {
	case "sync.Mutex.Lock", "sync.RWMutex.Lock", "sync.RWMutex.RLock", "sync.WaitGroup.Wait", "sync.Cond.Wait":
		add(name, sel.X)
	}
}
