package lower

import (
	"fmt"
	"go/ast"
	"go/constant"
	"go/token"
	"go/types"
	"sort"
	"strconv"
	"strings"
)

func (f *fctx) typeOf(e ast.Expr) types.Type { return f.p.typ(e) }

// constant is the text of a constant.
func (p *prog) constant(v constant.Value, t types.Type) string {
	switch v.Kind() {
	case constant.Bool:
		return fmt.Sprint(constant.BoolVal(v))
	case constant.String:
		if p.texts && !isLit(t) {
			return p.textConst(constant.StringVal(v))
		}
		if isLit(t) && !p.printsAlone {
			p.noteLiteral(constant.StringVal(v))
		}
		return p.quote(constant.StringVal(v))
	}
	if b, ok := under(t).(*types.Basic); ok && b.Info()&types.IsComplex != 0 {
		p.refuse("type %s", t)
	} else if ok && b.Info()&types.IsFloat != 0 {
		return p.floatConst(v, b)
	}
	i := constant.ToInt(v)
	if i.Kind() != constant.Int {
		p.refuse("constant %s", v)
	}
	n, exact := constant.Int64Val(i)
	if u, ok := constant.Uint64Val(i); !exact && ok {
		n, exact = int64(u), true
	}
	if !exact {
		p.refuse("an integer above 9223372036854775807")
	}
	if n == -1<<63 {
		return "(-9223372036854775807 - 1)"
	}
	if n < 0 {
		return fmt.Sprintf("(%d)", n)
	}
	return fmt.Sprint(n)
}

// fresh: the value is not part of a variable, so that nobody else refers to its storage.
func (f *fctx) isFresh(e ast.Expr) bool {
	switch e := ast.Unparen(e).(type) {
	case *ast.CompositeLit, *ast.FuncLit:
		return true
	case *ast.CallExpr:
		if f.p.Info.Types[e.Fun].IsType() {
			return f.isFresh(e.Args[0])
		}
		return true
	case *ast.UnaryExpr:
		return e.Op == token.ARROW
	}
	return false
}

// rval is the value of e, converted to t, in storage of its own.
func (f *fctx) rval(e ast.Expr, t types.Type) string {
	et := f.typeOf(e)
	if b, ok := et.(*types.Basic); ok && b.Kind() == types.UntypedNil {
		return "nil"
	}
	f.second(e)
	x := f.expr(e)
	if isRef(et) && !f.isFresh(e) {
		x = f.p.copyOf(et, x)
	}
	return f.convert(x, et, t)
}

// convert converts an owned value where Go does so without saying.
func (f *fctx) convert(x string, from, to types.Type) string {
	if to != nil && isIface(to) && !isIface(from) {
		return f.p.toIface(x, from)
	}
	return x
}

// expr is the value of e; a struct or array is a reference to its storage.
func (f *fctx) expr(e ast.Expr) string {
	p := f.p
	if x, ok := f.hoisted[e]; ok {
		delete(f.hoisted, e)
		return x
	}
	tv := p.Info.Types[e]
	if tv.Value != nil {
		return p.constant(tv.Value, p.subst(tv.Type))
	}
	switch e := e.(type) {
	case *ast.ParenExpr:
		return f.expr(e.X)
	case *ast.Ident:
		return f.ident(e)
	case *ast.FuncLit:
		return f.closure(e)
	case *ast.CompositeLit:
		return f.composite(e)
	case *ast.SelectorExpr:
		return f.selector(e)
	case *ast.IndexExpr:
		if fn, ok := p.Info.Uses[identOf(generic(e))].(*types.Func); ok {
			return f.instanceValue(e, fn)
		}
		return f.index(e)
	case *ast.IndexListExpr:
		if fn, ok := p.Info.Uses[identOf(generic(e))].(*types.Func); ok {
			return f.instanceValue(e, fn)
		}
	case *ast.SliceExpr:
		return f.sliceExpr(e)
	case *ast.TypeAssertExpr:
		x := f.anyTemp(f.expr(e.X))
		t := f.typeOf(e)
		if tup, ok := t.(*types.Tuple); ok {
			t = tup.At(0).Type()
		}
		x = f.assert(x, f.typeOf(e.X), t)
		if f.reads(e.X) {
			return f.temp(x) // a later call may change the variable
		}
		return x
	case *ast.CallExpr:
		return f.call(e)
	case *ast.StarExpr:
		if y := f.bitsOf(e); y != nil {
			return f.expr(y)
		}
		x := f.expr(e.X)
		if isArray(deref(f.typeOf(e.X))) {
			return f.nilChecked(x)
		}
		x = f.notNil(x)
		if isStruct(deref(f.typeOf(e.X))) {
			return x
		}
		return x + ".v"
	case *ast.UnaryExpr:
		return f.unary(e)
	case *ast.BinaryExpr:
		return f.binary(e)
	case *ast.BasicLit: // beside a value of a type parameter
		return p.constant(constant.MakeFromLiteral(e.Value, e.Kind, 0), f.typeOf(e))
	}
	p.refuse("expression")
	return ""
}

// instanceValue is a function or a method with type arguments as a value.
func (f *fctx) instanceValue(e ast.Expr, fn *types.Func) string {
	sig := f.typeOf(e).(*types.Signature)
	if sel, ok := generic(e).(*ast.SelectorExpr); ok {
		if s := f.p.selectionOf(sel); s != nil && s.kind == types.MethodVal {
			return f.methodValue(sel, s, sig)
		} else if s != nil {
			return f.methodExpr(sel, s, sig)
		}
	}
	return f.funcValue(fn, f.p.typeArgs(e), sig)
}

// identOf is the identifier that names something, maybe behind a package.
func identOf(e ast.Expr) *ast.Ident {
	switch x := e.(type) {
	case *ast.Ident:
		return x
	case *ast.SelectorExpr:
		return x.Sel
	}
	return nil
}

func (f *fctx) ident(e *ast.Ident) string {
	switch o := f.p.Info.ObjectOf(e).(type) {
	case *types.Var:
		return f.varRef(o)
	case *types.Nil:
		return "nil"
	case *types.Func:
		return f.funcValue(o, f.p.typeArgs(e), f.typeOf(e).(*types.Signature))
	}
	f.p.refuse("name %s", e.Name)
	return ""
}

func (f *fctx) selector(e *ast.SelectorExpr) string {
	p := f.p
	s := p.selectionOf(e)
	if s == nil {
		switch o := p.Info.Uses[e.Sel].(type) {
		case *types.Var:
			return p.globalRef(o)
		case *types.Func:
			return f.funcValue(o, p.typeArgs(e), f.typeOf(e).(*types.Signature))
		}
		p.refuse("%s", e.Sel.Name)
	}
	switch s.kind {
	case types.MethodVal:
		return f.methodValue(e, s, f.typeOf(e).(*types.Signature))
	case types.MethodExpr:
		return f.methodExpr(e, s, f.typeOf(e).(*types.Signature))
	}
	if native(deref(f.typeOf(e.X))) == "sync.Cond" {
		return f.expr(e.X) + ".L"
	}
	x, _ := f.walk(f.expr(e.X), f.typeOf(e.X), s.index)
	return x
}

// address is &e.
func (f *fctx) address(e ast.Expr) string {
	p := f.p
	e = ast.Unparen(e)
	t := f.typeOf(e)
	if _, ok := e.(*ast.CompositeLit); ok && !isRef(t) {
		return fmt.Sprintf("(&%s{v: %s})", p.box(p.lt(t)), f.expr(e))
	}
	if s, ok := e.(*ast.StarExpr); ok {
		return f.nilChecked(f.expr(s.X))
	}
	x := f.expr(e)
	if isRef(t) {
		return x
	}
	if !strings.HasSuffix(x, ".v") {
		p.refuse("address of this expression")
	}
	return strings.TrimSuffix(x, ".v")
}

func (f *fctx) unary(e *ast.UnaryExpr) string {
	p := f.p
	switch e.Op {
	case token.AND:
		return f.address(e.X)
	case token.ARROW:
		r := f.recv(e)
		if f.announces() {
			f.waiting(func() { r = f.temp(bare(r)) })
		}
		return f.received(r, f.elemOf(e.X))
	case token.NOT:
		return "(!" + f.expr(e.X) + ")"
	case token.SUB:
		if isFloat(f.typeOf(e)) {
			return p.floatNeg(f.typeOf(e), f.expr(e.X))
		}
		return p.wrap(f.typeOf(e), "(-"+f.expr(e.X)+")")
	case token.ADD:
		return f.expr(e.X)
	case token.XOR:
		return p.wrap(f.typeOf(e), "(-"+f.expr(e.X)+" - 1)")
	}
	p.refuse("operator %s", e.Op)
	return ""
}

func (f *fctx) elemOf(ch ast.Expr) types.Type { return under(f.typeOf(ch)).(*types.Chan).Elem() }

// recv is the receive itself.
func (f *fctx) recv(e ast.Expr) string {
	return "(<-" + f.settle(f.expr(ast.Unparen(e).(*ast.UnaryExpr).X)) + ")"
}

// received: a closed channel gives nil, where a struct's zero value has storage.
func (f *fctx) received(x string, t types.Type) string {
	p := f.p
	if !isRef(t) {
		return x
	}
	l := p.lt(t)
	fn := p.aux("orzero", typeKey(t), func(name string, b *buffer) {
		z := p.zero(t)
		b.add(0, "func %s(x %s) %s {", name, l, l)
		b.add(0, "if x == nil {")
		b.add(0, "return %s", z)
		b.add(0, "}")
		b.add(0, "return x")
		b.add(0, "}")
	})
	return fmt.Sprintf("%s(%s)", fn, x)
}

// wrap brings the result of arithmetic into the range of its type.
func (p *prog) wrap(t types.Type, x string) string {
	b, ok := under(t).(*types.Basic)
	if !ok {
		return x
	}
	switch b.Kind() {
	case types.Int8:
		return fmt.Sprintf("%s(%s, 128)", p.stdFunc("golf", "Signed"), x)
	case types.Int16:
		return fmt.Sprintf("%s(%s, 32768)", p.stdFunc("golf", "Signed"), x)
	case types.Int32:
		return fmt.Sprintf("%s(%s, 2147483648)", p.stdFunc("golf", "Signed"), x)
	case types.Uint8:
		return fmt.Sprintf("%s(%s, 256)", p.stdFunc("golf", "Unsigned"), x)
	case types.Uint16:
		return fmt.Sprintf("%s(%s, 65536)", p.stdFunc("golf", "Unsigned"), x)
	case types.Uint32:
		return fmt.Sprintf("%s(%s, 4294967296)", p.stdFunc("golf", "Unsigned"), x)
	}
	return x
}

// isWide: the values are unsigned and have 64 bits; those above 2^63-1 are held as negative integers.
func isWide(t types.Type) bool {
	b, ok := under(t).(*types.Basic)
	return ok && (b.Kind() == types.Uint || b.Kind() == types.Uint64 || b.Kind() == types.Uintptr)
}

// arith is x op y on two values of type t.
func (f *fctx) arith(op token.Token, t types.Type, x, y string) string {
	p := f.p
	if isString(t) && !isLit(t) {
		p.need(&p.texts)
		return p.golf("Join", x, y)
	}
	call := func(name string) string { return fmt.Sprintf("%s(%s, %s)", p.stdFunc("golf", name), x, y) }
	if isFloat(t) {
		return p.floatArith(op, t, x, y)
	}
	if (op == token.QUO || op == token.REM) && (y == "0" || !isLiteral(y)) && f.unwinds() {
		y = f.pin(y)
		f.runtimeError(y+" == 0", "runtime error: integer divide by zero")
	}
	if isWide(t) {
		switch op {
		case token.QUO:
			return call("UDiv")
		case token.REM:
			return call("URem")
		case token.SHR:
			if n, err := strconv.Atoi(y); err == nil && n > 0 && n < 63 {
				return fmt.Sprintf("%s(%s, %d)", p.stdFunc("golf", "UPart"), x, 1<<n)
			}
			return call("UShr")
		}
	}
	if n, err := strconv.Atoi(y); err == nil && n >= 0 {
		switch {
		case op == token.AND && n < 1<<62 && n&(n+1) == 0:
			return fmt.Sprintf("%s(%s, %d)", p.stdFunc("golf", "Unsigned"), x, n+1)
		case op == token.SHR && n < 63:
			return fmt.Sprintf("%s(%s, %d)", p.stdFunc("golf", "Floor"), x, 1<<n)
		case op == token.SHL && n < 63:
			return p.wrap(t, fmt.Sprintf("(%s * %d)", x, 1<<n))
		}
	}
	switch op {
	case token.ADD, token.SUB, token.MUL, token.QUO:
		return p.wrap(t, fmt.Sprintf("(%s %s %s)", x, op, y))
	case token.REM:
		return fmt.Sprintf("(%s %% %s)", x, y)
	case token.AND:
		return call("And")
	case token.OR:
		return call("Or")
	case token.XOR:
		return call("Xor")
	case token.AND_NOT:
		return call("AndNot")
	case token.SHL:
		return p.wrap(t, call("Shl"))
	case token.SHR:
		return call("Shr")
	}
	p.refuse("operator %s", op)
	return ""
}

func isNil(p *prog, e ast.Expr) bool { return p.Info.Types[e].IsNil() }

func (f *fctx) binary(e *ast.BinaryExpr) string {
	switch e.Op {
	case token.LAND, token.LOR:
		x := f.alone(e.X)
		var y string
		b := f.capture(func() { y = f.alone(e.Y) })
		if len(b.lines) == 0 {
			return fmt.Sprintf("(%s %s %s)", x, e.Op, y)
		}
		t := f.temp(x)
		if e.Op == token.LAND {
			f.emit("if %s {", t)
		} else {
			f.emit("if !%s {", t)
		}
		f.splice(b)
		f.emit("%s = %s", t, y)
		f.emit("}")
		return t
	case token.EQL, token.NEQ, token.LSS, token.LEQ, token.GTR, token.GEQ:
		return f.compare(e)
	}
	xy := f.ordered(func() string { return f.expr(e.X) }, func() string { return f.count(e.Op, e.Y) })
	return f.arith(e.Op, f.typeOf(e), xy[0], xy[1])
}

// lenOfString is s for len(s).
func (f *fctx) lenOfString(e ast.Expr) ast.Expr {
	c, ok := ast.Unparen(e).(*ast.CallExpr)
	if !ok || f.p.Info.Types[e].Value != nil || len(c.Args) != 1 {
		return nil
	}
	id, ok := c.Fun.(*ast.Ident)
	if !ok {
		return nil
	}
	b, ok := f.p.Info.Uses[id].(*types.Builtin)
	if !ok || b.Name() != "len" {
		return nil
	}
	if t, ok := under(f.typeOf(c.Args[0])).(*types.Basic); !ok || t.Info()&types.IsString == 0 {
		return nil
	}
	return c.Args[0]
}

func (f *fctx) compare(e *ast.BinaryExpr) string {
	p := f.p
	not := func(x string) string {
		if e.Op == token.NEQ {
			return "(!" + x + ")"
		}
		return x
	}
	// len(s) against 0 says whether the string is empty
	if s := f.lenOfString(e.X); s != nil && !p.texts {
		if v := p.Info.Types[e.Y].Value; v != nil && constant.Sign(v) == 0 {
			switch e.Op {
			case token.EQL:
				return fmt.Sprintf("(%s == \"\")", f.expr(s))
			case token.NEQ, token.GTR:
				return fmt.Sprintf("(%s != \"\")", f.expr(s))
			}
		}
	}
	if isNil(p, e.X) || isNil(p, e.Y) {
		x := e.X
		if isNil(p, x) {
			x = e.Y
		}
		if isNil(p, x) {
			p.refuse("nil against nil")
		}
		return fmt.Sprintf("(%s %s nil)", f.expr(x), e.Op)
	}
	if x := f.comparedWithEmpty(e); x != nil {
		return fmt.Sprintf("(%s %s 0)", p.golf("Len", f.expr(x)), e.Op)
	}
	tx, ty := f.typeOf(e.X), f.typeOf(e.Y)
	t := tx
	if isIface(ty) && !isIface(tx) {
		t = ty
	}
	if b, ok := under(tx).(*types.Basic); ok && b.Info()&types.IsUntyped != 0 {
		t = ty
	}
	xy := f.ordered(func() string { return f.convert(f.expr(e.X), tx, t) }, func() string { return f.convert(f.expr(e.Y), ty, t) })
	if e.Op == token.EQL || e.Op == token.NEQ {
		if pointsToArray(t) {
			p.refuse("comparison of pointers to arrays")
		}
		f.comparable(t, xy)
		if !isIface(t) && !isRef(t) && p.lt(t) != "struct{}" && !p.isText(t) && !isFloat(t) {
			return fmt.Sprintf("(%s %s %s)", xy[0], e.Op, xy[1])
		}
		return not(p.equal(t, xy[0], xy[1]))
	}
	if isString(t) && !isLit(t) {
		p.need(&p.texts)
		return fmt.Sprintf("(%s %s 0)", p.golf("Compare", xy...), e.Op)
	}
	if isFloat(t) || isWide(t) {
		return p.lessOf(t, e.Op, xy[0], xy[1])
	}
	return fmt.Sprintf("(%s %s %s)", xy[0], e.Op, xy[1])
}

// comparedWithEmpty is the operand that == or != compares with the empty string, nil if there is none: its length tells enough.
func (f *fctx) comparedWithEmpty(e *ast.BinaryExpr) ast.Expr {
	if e.Op != token.EQL && e.Op != token.NEQ {
		return nil
	}
	for _, xy := range [][2]ast.Expr{{e.X, e.Y}, {e.Y, e.X}} {
		v := f.p.Info.Types[xy[1]].Value
		if v != nil && v.Kind() == constant.String && constant.StringVal(v) == "" && f.p.isText(f.typeOf(xy[0])) {
			return xy[0]
		}
	}
	return nil
}

// lessOf compares values whose order is not that of the integers that hold them.
func (p *prog) lessOf(t types.Type, op token.Token, x, y string) string {
	less := func(a, b string) string { return p.golf("ULess", a, b) }
	if isFloat(t) {
		if op == token.GEQ || op == token.LEQ {
			if op == token.LEQ {
				x, y = y, x
			}
			return fmt.Sprintf("%s(%s, %s)", p.floatFunc(t, "fge%d"), x, y)
		}
		if op == token.LSS {
			x, y = y, x
		}
		return fmt.Sprintf("%s(%s, %s)", p.floatFunc(t, "fgt%d"), x, y)
	}
	switch op {
	case token.LSS:
		return less(x, y)
	case token.GTR:
		return less(y, x)
	case token.LEQ:
		return "(!" + less(y, x) + ")"
	}
	return "(!" + less(x, y) + ")"
}

func (f *fctx) composite(e *ast.CompositeLit) string {
	p := f.p
	t := f.typeOf(e)
	if isPtr(t) {
		t = deref(t)
		if !isRef(t) {
			p.refuse("composite literal of this kind")
		}
	}
	f.at(e.Pos())
	switch u := under(t).(type) {
	case *types.Struct:
		if !isStruct(t) {
			return "struct{}{}"
		}
		if native(t) != "" && len(e.Elts) > 0 {
			p.refuse("literal of %s with fields", t)
		}
		var idx []int
		var gs []func() string
		for i, el := range e.Elts {
			v := el
			if kv, ok := el.(*ast.KeyValueExpr); ok {
				v = kv.Value
				found := false
				for k := 0; k < u.NumFields(); k++ {
					if u.Field(k).Name() == kv.Key.(*ast.Ident).Name {
						i, found = k, true
					}
				}
				if !found {
					p.refuse("a promoted field in a literal")
				}
			}
			i := i
			idx = append(idx, i)
			gs = append(gs, func() string { return f.rval(v, u.Field(i).Type()) })
		}
		given := map[int]string{}
		for k, x := range f.ordered(gs...) {
			given[idx[k]] = x
		}
		return p.newStruct(t, given, idx...)
	case *types.Slice:
		xs := f.elements(e, u.Elem(), -1)
		return p.sliceOf(u.Elem(), p.arrayOf(u.Elem(), xs), len(xs))
	case *types.Array:
		xs := f.elements(e, u.Elem(), int(u.Len()))
		return p.arrayOf(u.Elem(), xs)
	case *types.Map:
		return f.mapLiteral(e, u)
	}
	p.refuse("composite literal of type %s", t)
	return ""
}

// mapLiteral is a map with the entries of a literal. As by Go's compiler, those that are constants are stored first, so that
// another one with the same key replaces them.
func (f *fctx) mapLiteral(e *ast.CompositeLit, u *types.Map) string {
	x := f.p.mapFunc(u, "new") + "()"
	var known, others []*ast.KeyValueExpr
	inTurn := holdsIface(u.Key())
	for _, el := range e.Elts {
		kv := el.(*ast.KeyValueExpr)
		if f.isStatic(kv.Key) && f.isStatic(kv.Value) {
			known = append(known, kv)
			continue
		}
		others = append(others, kv)
		inTurn = inTurn || f.hasCall(kv) || f.panics(kv.Key) || f.panics(kv.Value)
	}
	if !inTurn {
		known, others = append(known, others...), nil
	}
	var gs []func() string
	for _, kv := range known {
		gs = append(gs, func() string { return f.rval(kv.Key, u.Key()) }, func() string { return f.rval(kv.Value, u.Elem()) })
	}
	xs := f.ordered(gs...)
	for i := 0; i < len(xs); i += 2 {
		x = fmt.Sprintf("%s(%s, %s, %s)", f.p.mapFunc(u, "with"), x, xs[i], xs[i+1])
	}
	if len(others) == 0 {
		return x
	}
	x = f.temp(x)
	for _, kv := range others {
		f.storeEntry(x, u, kv)
	}
	return x
}

// storeEntry stores an entry of a literal: a value that may panic comes before a key that may.
func (f *fctx) storeEntry(x string, u *types.Map, kv *ast.KeyValueExpr) {
	f.early(kv.Key, kv.Value)
	key := func() string { return f.rval(kv.Key, u.Key()) }
	value := func() string { return f.rval(kv.Value, u.Elem()) }
	var k, v string
	if f.panics(kv.Key) && f.panics(kv.Value) {
		if f.keyCopied(u, kv.Key) {
			f.keep(kv.Key)
		}
		v = f.keptValue(value())
		k = key()
	} else {
		kv := f.ordered(key, value)
		k, v = kv[0], kv[1]
	}
	if holdsIface(u.Key()) {
		v = f.keptValue(v)
	}
	k = f.hashable(u, k, "")
	f.emit("%s(%s, %s, %s)", f.p.mapFunc(u, "put"), x, k, v)
}

// isStatic: Go's compiler knows the value: a constant, nil, or an array or a struct of such values. What becomes a value of an
// interface is none.
func (f *fctx) isStatic(e ast.Expr) bool {
	tv := f.p.Info.Types[e]
	if to, ok := f.p.targets[e]; ok && !tv.IsNil() && isIface(f.p.subst(to)) {
		return false
	}
	lit, ok := ast.Unparen(e).(*ast.CompositeLit)
	if !ok || !isRef(f.typeOf(e)) {
		return tv.Value != nil || tv.IsNil()
	}
	for _, el := range lit.Elts {
		if kv, ok := el.(*ast.KeyValueExpr); ok {
			el = kv.Value
		}
		if !f.isStatic(el) {
			return false
		}
	}
	return true
}

// elements are the elements of a literal, with zero values in the gaps.
func (f *fctx) elements(e *ast.CompositeLit, elem types.Type, n int) []string {
	p := f.p
	var at []int
	var gs []func() string
	i, max := 0, n
	for _, el := range e.Elts {
		v := el
		if kv, ok := el.(*ast.KeyValueExpr); ok {
			v = kv.Value
			k, _ := constant.Int64Val(p.Info.Types[kv.Key].Value)
			i = int(k)
		}
		at = append(at, i)
		gs = append(gs, func() string { return f.rval(v, elem) })
		i++
		if i > max {
			max = i
		}
	}
	if max < 0 {
		max = 0
	}
	if max > 4096 {
		p.refuse("so long a literal")
	}
	given := f.ordered(gs...)
	if !sort.IntsAreSorted(at) { // they are evaluated in the order of the source
		for k, x := range given {
			if !isLiteral(x) {
				given[k] = f.temp(x)
			}
		}
	}
	xs := make([]string, max)
	for k, x := range given {
		xs[at[k]] = x
	}
	for k := range xs {
		if xs[k] == "" {
			xs[k] = p.zero(elem)
		}
	}
	return xs
}

func (f *fctx) index(e *ast.IndexExpr) string {
	p := f.p
	xt := f.typeOf(e.X)
	if p.isText(xt) {
		xi := f.ordered(func() string { return p.golf("Bytes", f.expr(e.X)) }, func() string { return f.expr(e.Index) })
		return f.element(types.Typ[types.Byte], xi[0], xi[1])
	}
	switch u := under(deref(xt)).(type) {
	case *types.Map:
		xk := f.ordered(func() string { return f.expr(e.X) }, func() string { return f.rval(e.Index, u.Key()) })
		if holdsIface(u.Key()) {
			xk[0] = f.pin(xk[0])
		}
		return fmt.Sprintf("%s(%s, %s)", p.mapFunc(u, "get"), xk[0], f.hashable(u, xk[1], xk[0]))
	case *types.Slice:
		xi := f.ordered(func() string { return f.expr(e.X) }, func() string { return f.expr(e.Index) })
		return f.element(u.Elem(), xi[0], xi[1])
	case *types.Array:
		xi := f.ordered(func() string { return f.indexed(e) }, func() string { return f.expr(e.Index) })
		return f.arrayElement(e, u, xi[0], xi[1])
	}
	p.refuse("index of type %s", xt)
	return ""
}

// indexed is the operand of an index. A pointer to an array is looked at before an index that may panic.
func (f *fctx) indexed(e *ast.IndexExpr) string {
	x := f.expr(e.X)
	if isPtr(f.typeOf(e.X)) && f.panics(e.Index) {
		return f.nilChecked(x)
	}
	return x
}

// arrayElement is a[i] of an array, or of what a pointer to one points to.
func (f *fctx) arrayElement(e *ast.IndexExpr, u *types.Array, a, i string) string {
	if f.unwinds() && f.user() {
		a, i = f.pin(a), f.pin(i)
		if isPtr(f.typeOf(e.X)) {
			f.runtimeError(a+" == nil", nilText)
		}
		if f.p.Info.Types[e.Index].Value == nil {
			f.indexError(i, fmt.Sprint(u.Len()))
		}
	} else if isPtr(f.typeOf(e.X)) {
		i = f.pin(i)
		a = f.nilChecked(a)
	}
	return f.p.slot(u.Elem(), fmt.Sprintf("%s[%s]", a, i))
}

// element is s[i] of a slice.
func (f *fctx) element(elem types.Type, s, i string) string {
	p := f.p
	if f.unwinds() && f.user() {
		s, i = f.pin(s), f.pin(i)
		f.indexError(i, p.sliceLen(elem, s))
	}
	if !p.grows(elem) {
		return p.slot(elem, fmt.Sprintf("%s[%s]", s, i))
	}
	s = f.pin(s)
	n := p.sliceStruct(elem)
	return p.slot(elem, fmt.Sprintf("%s_arr(%s)[%s_ix(%s, %s)]", n, s, n, s, i))
}

// assert is x.(t), x a simple text of the interface type from.
func (f *fctx) assert(x string, from, t types.Type) string {
	p := f.p
	if f.unwinds() {
		f.assertError(x, from, t)
	} else {
		f.emit("if !%s {", p.holds(x, t))
		f.emit("panic(%s)", quoted("interface conversion: the interface holds no "+typeText(t)))
		f.emit("}")
	}
	if isIface(t) {
		return x
	}
	return x + "." + p.dynOf(t).field()
}

// assertOK is x.(t) with ok: the value (zero if it does not hold).
func (f *fctx) assertOK(x string, t types.Type) (string, string) {
	p := f.p
	ok := f.temp(p.holds(x, t))
	l := p.lt(t)
	as := p.aux("as", typeKey(t), func(name string, b *buffer) {
		z, h, v := p.zero(t), p.holds("x", t), "x"
		if !isIface(t) {
			v = p.copyOf(t, "x."+p.dynOf(t).field())
		}
		b.add(0, "func %s(x *golf_any) %s {", name, l)
		b.add(0, "if %s {", h)
		b.add(0, "return %s", v)
		b.add(0, "}")
		b.add(0, "return %s", z)
		b.add(0, "}")
	})
	v := f.temp(fmt.Sprintf("%s(%s)", as, x))
	return v, ok
}

// count is the right operand; an unsigned count of a shift that is above 2^63-1 shifts all away.
func (f *fctx) count(op token.Token, e ast.Expr) string { return f.counted(op, e, f.expr(e)) }

// counted is count for an operand that has been evaluated.
func (f *fctx) counted(op token.Token, e ast.Expr, x string) string {
	if (op == token.SHL || op == token.SHR) && f.p.Info.Types[e].Value == nil && isWide(f.typeOf(e)) {
		return f.p.golf("Count", x)
	}
	if (op == token.SHL || op == token.SHR) && f.p.Info.Types[e].Value == nil && f.unwinds() {
		x = f.pin(x)
		f.runtimeError(x+" < 0", "runtime error: negative shift amount")
	}
	return x
}
