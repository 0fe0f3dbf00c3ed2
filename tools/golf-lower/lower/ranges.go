package lower

import (
	"fmt"
	"go/ast"
	"go/token"
	"go/types"
)

// rangeStmt: the variables are new in each iteration, as in Go since 1.22.
func (f *fctx) rangeStmt(s *ast.RangeStmt, label string) {
	p := f.p
	t := f.typeOf(s.X)
	f.early(s.X)
	r := &ranger{f: f, s: s, label: label, hasVal: s.Value != nil && !isBlank(s.Value)}
	switch u := under(deref(t)).(type) {
	case *types.Basic:
		switch {
		case p.isText(t):
			r.text()
		case u.Info()&types.IsInteger != 0:
			r.integer(t)
		default:
			p.refuse("range over type %s", t)
		}
	case *types.Slice:
		r.slice(u)
	case *types.Array:
		r.array(t, u)
	case *types.Map:
		r.mapping(u)
	case *types.Chan:
		r.channel(u)
	default:
		p.refuse("range over type %s", t)
	}
	f.stmts(s.Body.List)
	f.at(s.Body.Rbrace)
	f.emit("}")
	f.pop()
}

// ranger writes the beginning of a range loop.
type ranger struct {
	f      *fctx
	s      *ast.RangeStmt
	label  string
	hasVal bool
	second func(string) // assigns to the second variable of the header
}

// set gives the value of an iteration to a variable of the header.
func (r *ranger) set(e ast.Expr, x string, xt types.Type) {
	f := r.f
	if e == nil || isBlank(e) {
		return
	}
	if r.s.Tok == token.DEFINE {
		f.declare(f.p.Info.Defs[e.(*ast.Ident)].(*types.Var), x)
		return
	}
	if e == r.s.Key && r.hasVal {
		// both places are found before the first assignment
		f.hard = true
		key := f.place(e)
		r.second = f.place(r.s.Value)
		f.hard = false
		key(f.convert(x, xt, f.typeOf(e)))
		return
	}
	if e == r.s.Value && r.second != nil {
		r.second(f.convert(x, xt, f.typeOf(e)))
		return
	}
	f.place(e)(f.convert(x, xt, f.typeOf(e)))
}

// plain is the name that the loop can give to a variable of the header itself; other is a name in its place.
func (r *ranger) plain(e ast.Expr, other string) (name string, isPlain bool) {
	f := r.f
	if r.s.Tok != token.DEFINE || e == nil || isBlank(e) {
		return f.fresh(other), false
	}
	v := f.p.Info.Defs[e.(*ast.Ident)].(*types.Var)
	i := f.p.Vars[v]
	if i == nil || !i.Used || i.Assigned || f.p.isBoxed(v) || isRef(f.p.vtype(v)) {
		return f.fresh(other), false
	}
	return f.varName(v), true
}

// key is the variable that counts, and what gives it to the key of the header.
func (r *ranger) key() (string, func(types.Type)) {
	i, plain := r.plain(r.s.Key, "i")
	return i, func(t types.Type) {
		if !plain {
			r.set(r.s.Key, i, t)
		}
	}
}

func (r *ranger) integer(t types.Type) {
	f := r.f
	n := f.expr(r.s.X)
	if !isLiteral(n) {
		n = f.temp(n)
	}
	i, setKey := r.key()
	f.push(r.label, 'f')
	f.emit("for %s := 0; %s < %s; %s++ {", i, i, n, i)
	setKey(t)
}

func (r *ranger) slice(u *types.Slice) {
	f, p := r.f, r.f.p
	x := f.expr(r.s.X)
	v, plain := "", false
	if r.hasVal {
		v, plain = r.plain(r.s.Value, "x")
	}
	if !p.grows(u.Elem()) && (!r.hasVal || plain && !p.boxes(u.Elem())) {
		// the loop of the subset
		i, plainKey := "_", true
		if r.s.Key != nil && !isBlank(r.s.Key) {
			i, plainKey = r.plain(r.s.Key, "i")
		}
		f.push(r.label, 'f')
		switch {
		case r.hasVal:
			f.emit("for %s, %s := range %s {", i, v, bare(x))
		case i == "_":
			f.emit("for range %s {", bare(x))
		default:
			f.emit("for %s := range %s {", i, bare(x))
		}
		if !plainKey {
			r.set(r.s.Key, i, types.Typ[types.Int])
		}
		return
	}
	x = f.temp(x)
	n := f.temp(p.sliceLen(u.Elem(), x))
	arr, at := x, ""
	if p.grows(u.Elem()) && r.hasVal {
		// each index is inside of the slice, so that the array is read without a look
		name := p.sliceStruct(u.Elem())
		arr = f.temp(fmt.Sprintf("%s_arr(%s)", name, x))
		at = f.temp(fmt.Sprintf("%s_off(%s)", name, x)) + "+"
	}
	i, setKey := r.key()
	f.push(r.label, 'f')
	f.emit("for %s := 0; %s < %s; %s++ {", i, i, n, i)
	setKey(types.Typ[types.Int])
	if r.hasVal {
		r.set(r.s.Value, p.copyOf(u.Elem(), p.slot(u.Elem(), fmt.Sprintf("%s[%s%s]", arr, at, i))), u.Elem())
	}
}

func (r *ranger) array(t types.Type, u *types.Array) {
	f, p := r.f, r.f.p
	x := ""
	if r.hasVal || f.hasCall(r.s.X) { // else Go does not evaluate it
		x = f.expr(r.s.X)
		switch {
		case r.hasVal && !isPtr(t):
			x = p.copyOf(t, x)
		case r.hasVal && u.Len() > 0:
			x = f.nilChecked(x)
		}
		x = f.temp(x)
	}
	i, setKey := r.key()
	f.push(r.label, 'f')
	f.emit("for %s := 0; %s < %d; %s++ {", i, i, u.Len(), i)
	setKey(types.Typ[types.Int])
	if r.hasVal {
		r.set(r.s.Value, p.copyOf(u.Elem(), p.slot(u.Elem(), x+"["+i+"]")), u.Elem())
	}
}

// mapping goes over the keys of now, except for those that are deleted meanwhile.
func (r *ranger) mapping(u *types.Map) {
	f, p := r.f, r.f.p
	m := f.temp(f.expr(r.s.X))
	ks := f.temp(fmt.Sprintf("%s(%s)", p.mapFunc(u, "keys"), m))
	at := f.fresh("at")
	i := f.fresh("i")
	odd := ""
	if holdsFloat(u.Key()) {
		odd = f.temp("0")
	}
	f.push(r.label, 'f')
	f.emit("for %s := 0; %s < len(%s); %s++ {", i, i, ks, i)
	f.emit("%s := %s(%s, %s[%s])", at, p.mapFunc(u, "find"), m, ks, i)
	if odd != "" { // a key that is not equal to itself is found by its number
		f.emit("if %s < 0 {", at)
		f.emit("%s = %s(%s, %s[%s], %s)", at, p.mapFunc(u, "odd"), m, ks, i, odd)
		f.emit("if %s >= 0 {", at)
		f.emit("%s++", odd)
		f.emit("}")
		f.emit("}")
	}
	f.emit("if %s < 0 {", at)
	f.emit("continue")
	f.emit("}")
	if r.s.Key != nil && !isBlank(r.s.Key) {
		r.set(r.s.Key, p.copyOf(u.Key(), ks+"["+i+"]"), u.Key())
	}
	if r.hasVal {
		r.set(r.s.Value, p.copyOf(u.Elem(), fmt.Sprintf("%s(%s, %s)", p.mapFunc(u, "at"), m, at)), u.Elem())
	}
}

func (r *ranger) channel(u *types.Chan) {
	f := r.f
	x := f.expr(r.s.X)
	if f.announces() {
		x = f.pin(x)
		f.push(r.label, 'f')
		f.emit("for {")
		v, ok := f.fresh("x"), f.fresh("ok")
		f.waiting(func() { f.emit("%s, %s := <-%s", v, ok, x) })
		f.emit("if !%s {", ok)
		f.emit("break")
		f.emit("}")
		if r.s.Key != nil && !isBlank(r.s.Key) {
			r.set(r.s.Key, v, u.Elem())
		}
		return
	}
	f.push(r.label, 'f')
	if r.s.Key == nil || isBlank(r.s.Key) {
		f.emit("for range %s {", bare(x))
		return
	}
	i, setKey := r.key()
	f.emit("for %s := range %s {", i, bare(x))
	setKey(u.Elem())
}

// text goes over the runes of a string.
func (r *ranger) text() {
	f, p := r.f, r.f.p
	b := f.temp(p.golf("Bytes", f.expr(r.s.X)))
	w := f.temp("0")
	i, setKey := r.key()
	f.push(r.label, 'f')
	f.emit("for %s := 0; %s < %s; %s += %s {", i, i, p.sliceLen(types.Typ[types.Byte], b), i, w)
	f.emit("%s = %s", w, p.golf("Width", b, i))
	setKey(types.Typ[types.Int])
	if r.hasVal {
		r.set(r.s.Value, p.golf("Rune", b, i), types.Typ[types.Rune])
	}
}
