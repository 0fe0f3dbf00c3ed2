package lower

import (
	"fmt"
	"go/ast"
	"go/constant"
	"go/token"
	"go/types"
	"strings"
)

func pointerTo(t types.Type) types.Type { return types.NewPointer(t) }

func methodOf(t types.Type, name string) *types.Func {
	it := under(t).(*types.Interface)
	for i := 0; i < it.NumMethods(); i++ {
		if it.Method(i).Name() == name {
			return it.Method(i)
		}
	}
	return nil
}

func (f *fctx) stmts(list []ast.Stmt) {
	for i, s := range list {
		if l, ok := s.(*ast.LabeledStmt); ok && gotos(list[i:], l.Label.Name) {
			f.backward(l.Label.Name, list[i:])
			return
		}
		if label, n := f.forwardGoto(list, i); label != "" {
			f.emit("for {")
			c := f.push("goto "+label, 'g')
			c.loop = false
			f.stmts(list[i:n])
			f.emit("break")
			f.emit("}")
			f.pop()
			f.stmts(list[n:])
			return
		}
		f.stmt(s)
	}
}

// backward runs a list that is jumped back to in a loop of one round.
func (f *fctx) backward(label string, list []ast.Stmt) {
	f.emit("for {")
	c := f.push("goto "+label, 'b')
	c.loop = false
	old := f.label
	l := list[0].(*ast.LabeledStmt)
	f.label = l.Label.Name
	f.stmt(l.Stmt)
	f.label = old
	f.stmts(list[1:])
	f.emit("break")
	f.emit("}")
	f.pop()
}

// forwardGoto: statement i of the list jumps to a label further down in it, and it is the first that does.
func (f *fctx) forwardGoto(list []ast.Stmt, i int) (string, int) {
	for n := len(list) - 1; n > i; n-- {
		l, ok := list[n].(*ast.LabeledStmt)
		if ok && gotos(list[i:i+1], l.Label.Name) && !f.inGoto(l.Label.Name) {
			return l.Label.Name, n
		}
	}
	return "", 0
}

func (f *fctx) inGoto(label string) bool {
	for _, c := range f.stack {
		if c.label == "goto "+label {
			return true
		}
	}
	return false
}

// gotos: a statement of the list jumps to the label.
func gotos(list []ast.Stmt, label string) bool {
	found := false
	for _, s := range list {
		ast.Inspect(s, func(n ast.Node) bool {
			if b, ok := n.(*ast.BranchStmt); ok && b.Tok == token.GOTO && b.Label.Name == label {
				found = true
			}
			_, lit := n.(*ast.FuncLit)
			return !found && !lit
		})
	}
	return found
}

func (f *fctx) block(list []ast.Stmt) {
	f.emit("{")
	f.stmts(list)
	f.emit("}")
}

// lowerStmt lowers one statement.
func (f *fctx) lowerStmt(s ast.Stmt) {
	f.at(s.Pos())
	p := f.p
	f.pause(s)
	label := f.label
	f.label = ""
	switch s := s.(type) {
	case *ast.EmptyStmt:
	case *ast.BlockStmt:
		f.block(s.List)
	case *ast.ExprStmt:
		f.exprStmt(s.X)
	case *ast.SendStmt:
		t := f.elemOf(s.Chan)
		f.early(s.Chan, s.Value)
		if f.panics(s.Chan) && f.panics(s.Value) && f.copiedToSend(s.Value, t) {
			f.keep(s.Value)
		}
		xs := f.ordered(func() string { return f.expr(s.Chan) }, func() string { return f.rval(s.Value, t) })
		c, x := f.settle(xs[0]), f.settle(xs[1])
		f.waiting(func() { f.emit("%s <- %s", c, x) })
	case *ast.IncDecStmt:
		op := token.ADD
		if s.Tok == token.DEC {
			op = token.SUB
		}
		f.opAssign(s.X, op, nil)
	case *ast.AssignStmt:
		f.assignStmt(s)
	case *ast.GoStmt:
		f.emit("go %s", f.goCall(s.Call))
	case *ast.DeferStmt:
		f.emit("defer %s", f.goCall(s.Call))
	case *ast.ReturnStmt:
		f.returnStmt(s)
	case *ast.BranchStmt:
		f.branch(s)
	case *ast.IfStmt:
		f.ifStmt(s)
	case *ast.SwitchStmt:
		f.switchStmt(s, label)
	case *ast.TypeSwitchStmt:
		f.typeSwitch(s, label)
	case *ast.SelectStmt:
		f.selectStmt(s, label)
	case *ast.ForStmt:
		f.forStmt(s, label)
	case *ast.RangeStmt:
		f.rangeStmt(s, label)
	case *ast.LabeledStmt:
		f.label = s.Label.Name
		f.stmt(s.Stmt)
	case *ast.DeclStmt:
		f.declStmt(s.Decl.(*ast.GenDecl))
	default:
		p.refuse("statement")
	}
}

func (f *fctx) declStmt(d *ast.GenDecl) {
	if d.Tok != token.VAR {
		return
	}
	for _, sp := range d.Specs {
		vs := sp.(*ast.ValueSpec)
		f.at(vs.Pos())
		vars := make([]*types.Var, len(vs.Names))
		for i, id := range vs.Names {
			vars[i], _ = f.p.Info.Defs[id].(*types.Var)
		}
		if len(vs.Values) == 1 && len(vs.Names) > 1 {
			f.earlyOperands(vs.Values[0])
			parts, ts := f.multi(vs.Values[0], len(vs.Names))
			for i, v := range vars {
				if vs.Names[i].Name != "_" {
					f.declare(v, f.convert(parts[i], ts[i], f.p.vtype(v)))
				}
			}
			continue
		}
		f.early(vs.Values...)
		var gs []func() string
		for i := range vs.Values {
			t := f.typeOf(vs.Values[i])
			if vars[i] != nil {
				t = f.p.vtype(vars[i])
			}
			gs = append(gs, func() string { return f.rval(vs.Values[i], t) })
		}
		xs := f.ordered(gs...)
		for i, v := range vars {
			x := ""
			if len(xs) > 0 {
				x = xs[i]
			} else {
				x = f.p.zero(f.p.vtype(v))
			}
			if vs.Names[i].Name == "_" {
				f.discard(x)
				continue
			}
			f.declare(v, x)
		}
	}
}

// exprStmt is a call or a receive whose value is not used.
func (f *fctx) exprStmt(e ast.Expr) {
	p := f.p
	e = ast.Unparen(e)
	if u, ok := e.(*ast.UnaryExpr); ok && u.Op == token.ARROW {
		r := strings.TrimSuffix(strings.TrimPrefix(f.recv(u), "("), ")")
		f.waiting(func() { f.emit("%s", r) })
		return
	}
	c := e.(*ast.CallExpr)
	if f.printStmt(c) {
		return
	}
	fn := p.callee(c)
	if fn != nil && f.testCall(c, fn) {
		return
	}
	if fn != nil {
		p.testLiteral(c)
		sel, _ := ast.Unparen(c.Fun).(*ast.SelectorExpr)
		switch fn.FullName() {
		case "os.Exit", "golf.exit", "os.exit":
			f.exit(f.expr(c.Args[0]))
			return
		case "fmt.Errorf", "fmt.Sprintf", "fmt.Sprint", "fmt.Sprintln":
			// nobody sees the text
			for _, a := range c.Args {
				f.discard(f.expr(a))
			}
			return
		case "testing.apply":
			fi := p.fnStruct(under(f.typeOf(c.Args[0])).(*types.Signature))
			f.emit("%s_call(%s, %s)", fi.name, f.expr(c.Args[0]), f.expr(c.Args[1]))
			if p.unwind {
				f.emit("golf_end()")
			}
			return
		case "runtime.Goexit":
			p.need(&p.unwind)
			f.emit("golf_goexit()")
			f.leave()
			return
		case "(*sync.Once).Do":
			f.once(sel, c)
			return
		case "(*sync.WaitGroup).Go":
			s := p.selectionOf(sel)
			x, _ := p.walkPath(f.expr(sel.X), f.typeOf(sel.X), s.index[:len(s.index)-1])
			x = f.pin(x)
			f.emit("%s.Add(1)", x)
			f.emit("go %s(%s, %s)", p.stdFunc("sync", "groupGo"), x, f.rval(c.Args[0], fn.Signature().Params().At(0).Type()))
			return
		case "(*sync.Cond).Wait":
			if p.GenericCond {
				s := p.selectionOf(sel)
				x, _ := p.walkPath(f.expr(sel.X), f.typeOf(sel.X), s.index[:len(s.index)-1])
				f.condWait(x)
				return
			}
		case "(sync.Locker).Lock", "(sync.Locker).Unlock":
			if s, ok := ast.Unparen(sel.X).(*ast.SelectorExpr); !ok || p.GenericCond || native(deref(f.typeOf(s.X))) != "sync.Cond" {
				f.locker(f.expr(sel.X), fn.Name())
				return
			}
		case "(io.Writer).Write":
			// io.Discard.Write([]byte(s)): only s is evaluated
			if s, ok := ast.Unparen(sel.X).(*ast.SelectorExpr); ok && s.Sel.Name == "Discard" {
				if cv, ok := ast.Unparen(c.Args[0]).(*ast.CallExpr); ok && p.Info.Types[cv.Fun].IsType() {
					f.discard(f.expr(cv.Args[0]))
					return
				}
			}
		}
	}
	if fn != nil && f.nativeStmt(c, fn) {
		return
	}
	x := f.call(c)
	if b := p.isBuiltin(c); f.unwinds() && (b == "panic" || b == "" && isName(x)) {
		return
	}
	if p.isBuiltin(c) == "recover" {
		x = "_ = " + x
	}
	f.emit("%s", x)
	if f.unwinds() && p.isBuiltin(c) == "" && !strings.HasPrefix(x, "golf_Write") {
		f.check()
	}
}

// plainFunc is the type func().
var plainFunc = types.NewSignatureType(nil, nil, nil, nil, nil, false)

// once is o.Do(g) at the user's line: whoever waits for the first call waits there.
func (f *fctx) once(sel *ast.SelectorExpr, c *ast.CallExpr) {
	p := f.p
	s := p.selectionOf(sel)
	o, _ := p.walkPath(f.expr(sel.X), f.typeOf(sel.X), s.index[:len(s.index)-1])
	o = f.pin(o)
	g := ""
	lit, isLit := ast.Unparen(c.Args[0]).(*ast.FuncLit)
	if !isLit {
		g = f.pin(f.rval(c.Args[0], plainFunc))
	}
	f.emit("if !%s.done {", o)
	f.waiting(func() { f.emit("%s.m.Lock()", o) })
	f.emit("if !%s.done {", o)
	if isLit {
		name, li := f.lift(lit)
		f.emit("%s(%s)", name, strings.Join(p.capNames(li), ", "))
	} else {
		f.emit("%s_call(%s)", p.fnStruct(plainFunc).name, g)
	}
	f.emit("%s.done = true", o)
	f.emit("}")
	f.emit("%s.m.Unlock()", o)
	f.emit("}")
	f.check()
}

// multi is an expression with several values.
func (f *fctx) multi(e ast.Expr, n int) ([]string, []types.Type) {
	p := f.p
	e = ast.Unparen(e)
	tup, _ := f.typeOf(e).(*types.Tuple)
	ts := make([]types.Type, n)
	if tup != nil {
		for i := range ts {
			ts[i] = tup.At(i).Type()
		}
	}
	switch e := e.(type) {
	case *ast.CallExpr:
		t := f.temp(f.call(e))
		parts := make([]string, n)
		for i := range parts {
			parts[i] = fmt.Sprintf("%s.r%d", t, i)
		}
		return parts, ts
	case *ast.UnaryExpr:
		v, ok := f.fresh("t"), f.fresh("ok")
		et := f.elemOf(e.X)
		c := f.settle(f.expr(e.X))
		f.waiting(func() { f.emit("%s, %s := <-%s", v, ok, c) })
		return []string{f.received(v, et), ok}, []types.Type{et, types.Typ[types.Bool]}
	case *ast.IndexExpr:
		m := under(f.typeOf(e.X)).(*types.Map)
		xs := f.ordered(func() string { return f.expr(e.X) }, func() string { return f.rval(e.Index, m.Key()) })
		x := f.pin(xs[0])
		i := f.temp(fmt.Sprintf("%s(%s, %s)", p.mapFunc(m, "find"), x, f.hashable(m, xs[1], x)))
		v := f.temp(fmt.Sprintf("%s(%s, %s)", p.mapFunc(m, "at"), x, i))
		return []string{p.copyOf(m.Elem(), v), fmt.Sprintf("(%s >= 0)", i)}, []types.Type{m.Elem(), types.Typ[types.Bool]}
	case *ast.TypeAssertExpr:
		x := f.anyTemp(f.expr(e.X))
		t := ts[0]
		v, ok := f.assertOK(x, t)
		return []string{v, ok}, []types.Type{t, types.Typ[types.Bool]}
	}
	p.refuse("expression with several values")
	return nil, nil
}

func (f *fctx) assignStmt(s *ast.AssignStmt) {
	if s.Tok != token.ASSIGN && s.Tok != token.DEFINE {
		op := assignOps[s.Tok]
		f.opAssign(s.Lhs[0], op, s.Rhs[0])
		return
	}
	if len(s.Rhs) < len(s.Lhs) {
		f.assignParts(s)
		return
	}
	left := s.Lhs
	if s.Tok == token.DEFINE {
		left = nil
	}
	f.earlyIn(left, s.Rhs)
	if len(s.Lhs) > 1 {
		f.assignAll(s)
		return
	}
	l := s.Lhs[0]
	lt := f.lhsType(l, f.typeOf(s.Rhs[0]))
	if v := f.newVar(s, l); v != nil {
		f.declare(v, f.rval(s.Rhs[0], f.p.vtype(v)))
		return
	}
	f.assignOne(l, s.Rhs[0], lt)
}

// assignOps are the operators of assignments with one.
var assignOps = map[token.Token]token.Token{
	token.ADD_ASSIGN: token.ADD, token.SUB_ASSIGN: token.SUB, token.MUL_ASSIGN: token.MUL, token.QUO_ASSIGN: token.QUO,
	token.REM_ASSIGN: token.REM, token.AND_ASSIGN: token.AND, token.OR_ASSIGN: token.OR, token.XOR_ASSIGN: token.XOR,
	token.SHL_ASSIGN: token.SHL, token.SHR_ASSIGN: token.SHR, token.AND_NOT_ASSIGN: token.AND_NOT,
}

// assignParts is a, b = x, where x has several values. The calls on the left come first, then what is on the right, then what
// is left of the operands on the left.
func (f *fctx) assignParts(s *ast.AssignStmt) {
	for _, l := range s.Lhs {
		f.hoistOperands(l)
	}
	f.earlyOperands(s.Rhs[0])
	parts, ts := f.multi(s.Rhs[0], len(s.Lhs))
	f.at(s.Pos())
	places := make([]*storing, len(s.Lhs))
	before := f.newStores()
	for i, l := range s.Lhs {
		places[i] = f.foundFirst(s, i, before)
		before.add(l)
	}
	for i, l := range s.Lhs {
		if !isBlank(l) {
			f.storeLate(s, i, places[i], f.convert(parts[i], ts[i], f.storedType(s, i)))
		}
	}
}

// assignAll is a, b = x, y: first what an earlier store may change, of the operands on the left and of the values. Then each
// store comes with what is left of its value and its operands.
func (f *fctx) assignAll(s *ast.AssignStmt) {
	n := len(s.Lhs)
	places, vals := make([]*storing, n), make([]string, n)
	before := f.newStores()
	late := f.mayBeLate(s.Lhs, s.Rhs)
	if !late {
		for i := range s.Lhs {
			places[i] = f.storing(s, i)
		}
	}
	for i, r := range s.Rhs {
		if late {
			places[i] = f.foundFirst(s, i, before)
		}
		if before.change(r) || !f.panics(r) {
			vals[i] = f.assigned(s, i)
		}
		before.add(s.Lhs[i])
	}
	for i := range s.Lhs {
		f.storeLate(s, i, places[i], vals[i])
	}
}

// storing is the place of a store, as an entry of a map or as another one.
type storing struct {
	entry *mapEntry
	store func(string)
}

// foundFirst evaluates the operands of a left side that an earlier store may change. It gives the place if no other operand may
// panic.
func (f *fctx) foundFirst(s *ast.AssignStmt, i int, before *stores) *storing {
	if l := s.Lhs[i]; f.panicsBefore(l) && !f.promotes(l) {
		before.saveOperands(l)
		return nil
	}
	return f.storing(s, i)
}

// storing evaluates the operands of a left side of a, b = x, y before the stores.
func (f *fctx) storing(s *ast.AssignStmt, i int) *storing {
	f.hard = true
	defer func() { f.hard = false }()
	return f.storingNow(s, i)
}

// storingNow evaluates the operands of a left side of a, b = x, y.
func (f *fctx) storingNow(s *ast.AssignStmt, i int) *storing {
	l := s.Lhs[i]
	if v := f.newVar(s, l); v != nil {
		return &storing{store: func(x string) { f.declare(v, x) }}
	}
	if ix, m := f.isMapIndex(l); m != nil {
		e := f.entry(ix, m)
		return &storing{e, e.store}
	}
	return &storing{store: f.place(l)}
}

// storeLate stores a value, and evaluates what has not been evaluated yet: the operands of an entry of a map come before the
// value, others behind it.
func (f *fctx) storeLate(s *ast.AssignStmt, i int, to *storing, x string) {
	if _, m := f.isMapIndex(s.Lhs[i]); to == nil && m != nil {
		to = f.storingNow(s, i)
	}
	if to == nil {
		f.copyOperands(s.Lhs[i])
	}
	if x == "" {
		if to != nil && to.entry != nil {
			to.entry.make()
		}
		x = f.assigned(s, i)
	}
	if to == nil {
		to = f.storingNow(s, i)
	}
	to.store(x)
}

// assigned is a value of a, b = x, y.
func (f *fctx) assigned(s *ast.AssignStmt, i int) string {
	return f.keptValue(f.rval(s.Rhs[i], f.storedType(s, i)))
}

// storedType is the type of the variable that a store of a, b = .. is to, nil for none.
func (f *fctx) storedType(s *ast.AssignStmt, i int) types.Type {
	if v := f.newVar(s, s.Lhs[i]); v != nil {
		return f.p.vtype(v)
	}
	return f.lhsType(s.Lhs[i], nil)
}

func isBlank(e ast.Expr) bool {
	id, ok := e.(*ast.Ident)
	return ok && id.Name == "_"
}

func (f *fctx) lhsType(l ast.Expr, dflt types.Type) types.Type {
	if isBlank(l) {
		return dflt
	}
	return f.typeOf(l)
}

// newVar is the variable that a := declares on this side.
func (f *fctx) newVar(s *ast.AssignStmt, l ast.Expr) *types.Var {
	if s.Tok != token.DEFINE || isBlank(l) {
		return nil
	}
	v, _ := f.p.Info.Defs[l.(*ast.Ident)].(*types.Var)
	return v
}

// storePart stores one of several values.
func (f *fctx) storePart(s *ast.AssignStmt, l ast.Expr, x string, t types.Type) {
	if isBlank(l) {
		return
	}
	if v := f.newVar(s, l); v != nil {
		f.declare(v, f.convert(x, t, f.p.vtype(v)))
		return
	}
	f.place(l)(f.convert(x, t, f.typeOf(l)))
}

// assignOne is l = r, where the value is converted to t.
func (f *fctx) assignOne(l, r ast.Expr, t types.Type) {
	if isBlank(l) {
		f.discard(f.rval(r, t))
		return
	}
	if f.panicsBefore(l) {
		if _, m := f.isMapIndex(l); m == nil {
			f.copyOperands(l)
		}
		if f.panics(r) {
			x := f.keptValue(f.rval(r, t))
			f.place(l)(x)
			return
		}
	}
	var st func(string)
	lb := f.capture(func() { st = f.place(l) })
	if len(lb.lines) > 0 {
		f.splice(lb)
	}
	st(f.rval(r, t))
}

// keptValue is a value in a variable, unless it is a literal.
func (f *fctx) keptValue(x string) string {
	if isLiteral(x) {
		return x
	}
	return f.temp(x)
}

// place evaluates the operands of a left side, and gives the store to it.
func (f *fctx) place(l ast.Expr) func(string) {
	p := f.p
	l = ast.Unparen(l)
	if isBlank(l) {
		return func(x string) { f.discard(x) }
	}
	t := f.typeOf(l)
	if ix, m := f.isMapIndex(l); m != nil {
		return f.entry(ix, m).store
	}
	lv := f.lvalue(l)
	if isRef(t) {
		return func(x string) { f.emit("%s", p.set(t, lv(), x)) }
	}
	return func(x string) { f.emit("%s = %s", lv(), x) }
}

// lvalue evaluates the operands of a left side. What it gives is called where the value is stored: it looks for nil pointers
// and wrong indexes, and gives the text of the place. An array is found before an index that may panic.
func (f *fctx) lvalue(l ast.Expr) func() string {
	l = ast.Unparen(l)
	switch l := l.(type) {
	case *ast.IndexExpr:
		if _, ok := under(deref(f.typeOf(l.X))).(*types.Map); ok {
			break
		}
		if u, ok := under(f.typeOf(l.X)).(*types.Array); ok {
			a := f.lvalue(l.X)
			if f.panics(l.Index) {
				found := f.pin(a())
				a = func() string { return found }
			}
			i := f.pin(f.expr(l.Index))
			return func() string { return f.arrayElement(l, u, a(), i) }
		}
		xs := f.ordered(func() string { return f.indexed(l) }, func() string { return f.expr(l.Index) })
		s, i := f.pin(xs[0]), f.pin(xs[1])
		if u, ok := under(f.typeOf(l.X)).(*types.Slice); ok {
			return func() string { return f.element(u.Elem(), s, i) }
		}
		return func() string { return f.arrayElement(l, under(deref(f.typeOf(l.X))).(*types.Array), s, i) }
	case *ast.SelectorExpr:
		s := f.p.selectionOf(l)
		if s == nil || s.kind != types.FieldVal {
			break
		}
		if isPtr(f.typeOf(l.X)) {
			x := f.pin(f.expr(l.X))
			return func() string { return f.field(x, l, s) }
		}
		x := f.lvalue(l.X)
		return func() string { return f.field(x(), l, s) }
	case *ast.StarExpr:
		x := f.pin(f.expr(l.X))
		return func() string {
			if isArray(f.typeOf(l)) {
				return f.nilChecked(x)
			}
			f.notNil(x)
			if isRef(f.typeOf(l)) {
				return x
			}
			return x + ".v"
		}
	}
	x := f.expr(l)
	return func() string { return x }
}

// field is a field of a left side.
func (f *fctx) field(x string, l *ast.SelectorExpr, s *selection) string {
	r, _ := f.walk(x, f.typeOf(l.X), s.index)
	return r
}

// operand is the right side of l op= e, or 1 for l++ and l--.
func (f *fctx) operand(op token.Token, e ast.Expr, t types.Type) string {
	switch {
	case e != nil:
		return f.count(op, e)
	case isFloat(t):
		return f.p.floatConst(constant.MakeInt64(1), under(t).(*types.Basic))
	}
	return "1"
}

// callsYet: the expression, if there is one, has a call that has not been evaluated before its statement.
func (f *fctx) callsYet(e ast.Expr) bool {
	return e != nil && f.calls(e, func(e ast.Expr) bool {
		_, done := f.hoisted[e]
		return done
	})
}

// hasCall: the expression calls a function or receives.
func (f *fctx) hasCall(e ast.Expr) bool {
	return f.calls(e, func(ast.Expr) bool { return false })
}

// calls: the expression calls a function or receives, apart from its parts that are left out.
func (f *fctx) calls(e ast.Expr, without func(ast.Expr) bool) bool {
	found := false
	ast.Inspect(e, func(n ast.Node) bool {
		if e, ok := n.(ast.Expr); ok && without(e) {
			return false
		}
		switch n := n.(type) {
		case *ast.FuncLit:
			return false
		case *ast.CallExpr:
			tv := f.p.Info.Types[n.Fun]
			found = found || tv.IsValue()
		case *ast.UnaryExpr:
			found = found || n.Op == token.ARROW
		}
		return !found
	})
	return found
}

// opAssign is l op= e; without e it is l++ or l--.
func (f *fctx) opAssign(l ast.Expr, op token.Token, e ast.Expr) {
	t := f.typeOf(l)
	if e != nil {
		f.earlyIn([]ast.Expr{l}, []ast.Expr{e})
	} else {
		f.earlyIn([]ast.Expr{l}, nil)
	}
	if ix, m := f.isMapIndex(l); m != nil {
		f.opAssignEntry(ix, m, op, e)
		return
	}
	if f.panicsBefore(l) {
		f.copyOperands(l)
	}
	place := f.lvalue(l)
	y := ""
	if f.callsYet(e) {
		y = f.pin(f.count(op, e))
	}
	lv := place()
	if y == "" {
		y = f.operand(op, e, t)
	}
	r := f.arith(op, t, lv, y)
	if strings.HasPrefix(r, "("+lv+" "+op.String()+" ") {
		if y == "1" && (op == token.ADD || op == token.SUB) {
			f.emit("%s%s%s", lv, op, op)
			return
		}
		f.emit("%s %s= %s", lv, op, bare(y))
		return
	}
	f.emit("%s = %s", lv, r)
}

// opAssignEntry is m[k] op= e. Go's compiler evaluates e first, and makes the entry before the operation; if it divides, the
// operands and the old value come before e, and the entry is made at the end.
func (f *fctx) opAssignEntry(ix *ast.IndexExpr, m *types.Map, op token.Token, e ast.Expr) {
	divides := op == token.QUO || op == token.REM
	shifts := f.unwinds() && (op == token.SHL || op == token.SHR) && f.p.Info.Types[e].Value == nil && !isUnsigned(f.typeOf(e))
	y := ""
	if e != nil && !divides && f.valueFirst(ix, e) {
		y = f.keptValue(f.expr(e))
	}
	entry := f.entry(ix, m)
	if divides {
		entry.key = f.hashable(m, entry.key, "")
	}
	switch calls := f.callsYet(e); {
	case shifts:
		if y == "" {
			y = f.pin(f.expr(e))
		}
		entry.make()
		y = f.counted(op, e, y)
	case y != "":
		y = f.counted(op, e, y)
	default:
		y = f.operand(op, e, m.Elem())
		if calls {
			y = f.pin(y)
		}
	}
	entry.store(f.arith(op, f.typeOf(ix), entry.get(), y))
}

func (f *fctx) returnStmt(s *ast.ReturnStmt) {
	p := f.p
	res := p.tuple(f.sig.Results())
	if len(s.Results) == 0 {
		if res.Len() == 0 || f.inner {
			f.emit("return")
			return
		}
		f.emit("return %s", f.namedResult())
		return
	}
	var parts []string
	f.early(s.Results...)
	if len(s.Results) == 1 && res.Len() > 1 {
		c := ast.Unparen(s.Results[0]).(*ast.CallExpr)
		tup := f.typeOf(c).(*types.Tuple)
		same := len(f.named) == 0
		for i := 0; i < res.Len(); i++ {
			same = same && isIface(res.At(i).Type()) == isIface(tup.At(i).Type())
		}
		if same {
			f.emit("return %s", f.call(c))
			return
		}
		var ts []types.Type
		parts, ts = f.multi(c, res.Len())
		for i := range parts {
			parts[i] = f.convert(parts[i], ts[i], res.At(i).Type())
		}
	} else {
		var gs []func() string
		for i, e := range s.Results {
			gs = append(gs, func() string { return f.rval(e, res.At(i).Type()) })
		}
		parts = f.ordered(gs...)
	}
	f.at(s.Pos())
	if len(f.named) > 0 {
		// a return assigns to the named results, which deferred calls and literals may read
		boxed := f.inner
		for _, r := range f.named {
			boxed = boxed || p.isBoxed(r)
		}
		if boxed {
			for i := range parts {
				if len(parts) > 1 {
					parts[i] = f.pin(parts[i])
				}
			}
			for i, r := range f.named {
				if r.Name() != "_" {
					if isRef(p.vtype(r)) {
						f.emit("%s", p.set(p.vtype(r), f.varRef(r), parts[i]))
					} else {
						f.emit("%s = %s", f.varRef(r), parts[i])
					}
				}
			}
			if f.inner {
				f.emit("return")
				return
			}
			f.emit("return %s", f.namedResult())
			return
		}
	}
	if len(parts) == 1 {
		f.emit("return %s", parts[0])
		return
	}
	f.emit("return %s", p.pack(res, parts))
}

func (f *fctx) ifStmt(s *ast.IfStmt) {
	f.branches(s, "if ", f.condition(s))
}

// condition is the condition of an if, behind the statements that it needs.
func (f *fctx) condition(s *ast.IfStmt) string {
	if s.Init != nil {
		f.stmt(s.Init)
		f.at(s.Cond.Pos())
	}
	return f.alone(s.Cond)
}

// branches is an if with its condition, and with how it begins.
func (f *fctx) branches(s *ast.IfStmt, head, cond string) {
	f.at(s.Pos())
	f.emit("%s%s {", head, bare(cond))
	f.stmts(s.Body.List)
	f.at(s.Body.Rbrace)
	switch e := s.Else.(type) {
	case *ast.BlockStmt:
		f.emit("} else {")
		f.stmts(e.List)
	case *ast.IfStmt:
		f.elseIf(e)
		return
	}
	f.emit("}")
}

// elseIf is an else with an if, which needs a block of its own if its condition needs statements.
func (f *fctx) elseIf(s *ast.IfStmt) {
	var cond string
	b := f.capture(func() { cond = f.condition(s) })
	if len(b.lines) == 0 {
		f.branches(s, "} else if ", cond)
		return
	}
	f.emit("} else {")
	f.splice(b)
	f.branches(s, "if ", cond)
	f.emit("}")
}
