package lower

import (
	"fmt"
	"go/ast"
	"go/types"
)

// builtin is a call of a built-in function.
func (f *fctx) builtin(b string, c *ast.CallExpr) string {
	p := f.p
	if len(c.Args) == 1 {
		if t, ok := f.typeOf(c.Args[0]).(*types.Tuple); ok && t.Len() > 1 {
			p.refuse("several results as the operands of %s", b)
		}
	}
	switch b {
	case "recover":
		p.usesAny = true
		p.need(&p.unwind)
		return "golf_recover()"
	case "len", "cap":
		return f.lenCall(b, c.Args[0])
	case "make":
		return f.makeCall(c)
	case "new":
		t := deref(f.typeOf(c))
		if !p.Info.Types[c.Args[0]].IsType() { // new(x), since Go 1.26
			x := f.rval(c.Args[0], t)
			if isRef(t) {
				return x
			}
			return fmt.Sprintf("(&%s{v: %s})", p.box(p.lt(t)), x)
		}
		if isRef(t) {
			return p.zero(t)
		}
		return fmt.Sprintf("(&%s{v: %s})", p.box(p.lt(t)), p.zero(t))
	case "append":
		return f.appendCall(c)
	case "close":
		return fmt.Sprintf("close(%s)", f.expr(c.Args[0]))
	case "delete":
		m := under(f.typeOf(c.Args[0])).(*types.Map)
		xs := f.ordered(func() string { return f.expr(c.Args[0]) }, func() string { return f.rval(c.Args[1], m.Key()) })
		if holdsIface(m.Key()) {
			xs[0] = f.pin(xs[0])
		}
		return fmt.Sprintf("%s(%s, %s)", p.mapFunc(m, "delete"), xs[0], f.hashable(m, xs[1], xs[0]))
	case "clear":
		if m, ok := under(f.typeOf(c.Args[0])).(*types.Map); ok {
			return fmt.Sprintf("%s(%s)", p.mapFunc(m, "clear"), f.expr(c.Args[0]))
		}
		if s, ok := under(f.typeOf(c.Args[0])).(*types.Slice); ok {
			elem := s.Elem()
			l := p.lt(s)
			fn := p.aux("clear", l+p.suffix(elem), func(name string, b *buffer) {
				at := p.at(elem, "s", "i")
				b.add(0, "func %s(s %s) {", name, l)
				b.add(0, "for i := 0; i < %s; i++ {", p.sliceLen(elem, "s"))
				if isRef(elem) {
					b.add(0, "%s", p.set2(elem, at, p.zero(elem)))
				} else {
					b.add(0, "%s = %s", at, p.zero(elem))
				}
				b.add(0, "}")
				b.add(0, "}")
			})
			return fmt.Sprintf("%s(%s)", fn, f.expr(c.Args[0]))
		}
	case "copy":
		s, ok := under(f.typeOf(c.Args[0])).(*types.Slice)
		if !ok {
			p.refuse("copy of type %s", f.typeOf(c.Args[0]))
		}
		return f.copySlices(s.Elem(), c)
	case "panic":
		if f.unwinds() {
			f.raise(f.panicValue(c.Args[0]))
			return ""
		}
		text, made := f.panicText(c.Args[0])
		if made {
			f.emit("%s", p.golf("Say", text))
			text = `"` + tie + `"`
		}
		return fmt.Sprintf("panic(%s)", text)
	case "min", "max":
		return f.minCall(b, c)
	}
	p.refuse("%s", b)
	return ""
}

// lenCall is len or cap.
func (f *fctx) lenCall(b string, a ast.Expr) string {
	p := f.p
	t := f.typeOf(a)
	if p.isText(t) {
		return p.golf("Len", f.expr(a))
	}
	switch u := under(deref(t)).(type) {
	case *types.Slice:
		if b == "cap" {
			return fmt.Sprintf("%s_cap(%s)", p.sliceStruct(u.Elem()), f.expr(a))
		}
		return p.sliceLen(u.Elem(), f.expr(a))
	case *types.Chan:
		if b == "cap" {
			p.refuse("cap of a channel")
		}
		return fmt.Sprintf("len(%s)", f.expr(a))
	case *types.Map:
		return fmt.Sprintf("%s(%s)", p.mapFunc(u, "len"), f.expr(a))
	case *types.Array:
		f.discard(f.expr(a))
		return fmt.Sprint(u.Len())
	}
	p.refuse("%s of type %s", b, t)
	return ""
}

func (f *fctx) makeCall(c *ast.CallExpr) string {
	p := f.p
	t := f.typeOf(c)
	switch u := under(t).(type) {
	case *types.Chan:
		both := p.lt(types.NewChan(types.SendRecv, u.Elem()))
		if len(c.Args) == 1 {
			return fmt.Sprintf("make(%s)", both)
		}
		n := f.expr(c.Args[1])
		if p.Info.Types[c.Args[1]].Value == nil && f.unwinds() {
			n = f.pin(n)
			f.runtimeError(n+" < 0", "makechan: size out of range")
		}
		return fmt.Sprintf("make(%s, %s)", both, n)
	case *types.Map:
		if len(c.Args) == 2 {
			f.discard(f.expr(c.Args[1]))
		}
		return p.mapFunc(u, "new") + "()"
	case *types.Slice:
		if len(c.Args) == 3 {
			xs := f.ordered(func() string { return f.expr(c.Args[1]) }, func() string { return f.expr(c.Args[2]) })
			if f.unwinds() {
				xs[0], xs[1] = f.pin(xs[0]), f.pin(xs[1])
				f.runtimeError(xs[0]+" < 0", "runtime error: makeslice: len out of range")
				f.runtimeError(fmt.Sprintf("%s < 0 || %s > %s", xs[1], xs[0], xs[1]), "runtime error: makeslice: cap out of range")
			}
			n := p.sliceStruct(u.Elem())
			return fmt.Sprintf("%s_slice(%s_of(%s), 0, %s)", n, n, p.makeNative(u.Elem(), xs[1]), xs[0])
		}
		n := f.expr(c.Args[1])
		if p.Info.Types[c.Args[1]].Value == nil && f.unwinds() {
			n = f.pin(n)
			f.runtimeError(n+" < 0", "runtime error: makeslice: len out of range")
		}
		return p.sliceOf(u.Elem(), p.makeNative(u.Elem(), n), 0)
	}
	p.refuse("make of type %s", t)
	return ""
}

func (f *fctx) appendCall(c *ast.CallExpr) string {
	p := f.p
	s := under(f.typeOf(c)).(*types.Slice)
	n := p.sliceStruct(s.Elem())
	var gs []func() string
	for i, a := range c.Args {
		t := s.Elem()
		if i == 0 || c.Ellipsis.IsValid() {
			t = nil
		}
		gs = append(gs, func() string { return f.rval(a, t) })
	}
	xs := f.ordered(gs...)
	switch {
	case c.Ellipsis.IsValid() && p.isText(f.typeOf(c.Args[1])):
		return fmt.Sprintf("%s_join(%s, %s)", n, xs[0], p.sliceOfCopy(s.Elem(), xs[1]))
	case c.Ellipsis.IsValid():
		return fmt.Sprintf("%s_join(%s, %s)", n, xs[0], xs[1])
	case len(xs) == 1:
		return xs[0]
	case len(xs) == 2:
		return fmt.Sprintf("%s_add(%s, %s)", n, xs[0], xs[1])
	}
	return fmt.Sprintf("%s_join(%s, %s_of(%s))", n, xs[0], n, p.arrayOf(s.Elem(), xs[1:]))
}

// sliceOfCopy has the bytes of a string as a slice of the element type.
func (p *prog) sliceOfCopy(elem types.Type, text string) string {
	if typeKey(elem) != "uint8" {
		p.refuse("bytes of type %s", elem)
	}
	return p.golf("Copy", text)
}

// minCall is min or max of numbers or strings.
func (f *fctx) minCall(b string, c *ast.CallExpr) string {
	p := f.p
	t := f.typeOf(c)
	name := map[string]string{"min": "Min", "max": "Max"}[b]
	if p.isText(t) {
		name += "Text"
	} else if isWide(t) {
		name = "U" + name
	}
	var gs []func() string
	for _, a := range c.Args {
		gs = append(gs, func() string { return f.expr(a) })
	}
	xs := f.ordered(gs...)
	r := xs[0]
	for _, x := range xs[1:] {
		if isFloat(t) {
			r = fmt.Sprintf("%s(%s, %s)", p.floatFunc(t, "f"+b+"%d"), r, x)
		} else {
			r = p.golf(name, r, x)
		}
	}
	return r
}

// copySlices is the built-in copy.
func (f *fctx) copySlices(elem types.Type, c *ast.CallExpr) string {
	p := f.p
	l := p.lt(types.NewSlice(elem))
	at := func(s, i string) string { return p.at(elem, s, i) }
	fn := p.aux("copyslice", l+p.suffix(elem), func(name string, b *buffer) {
		mv := at("d", "i") + " = " + at("s", "i")
		if isRef(elem) {
			mv = p.set2(elem, at("d", "i"), at("s", "i"))
		}
		ln := func(s string) string { return p.sliceLen(elem, s) }
		b.add(0, "func %s(d %s, s %s) int {", name, l, l)
		b.add(0, "n := %s", ln("d"))
		b.add(0, "if %s < n {", ln("s"))
		b.add(0, "n = %s", ln("s"))
		b.add(0, "}")
		if p.grows(elem) {
			b.add(0, "if n > 0 && d.off > s.off {")
			b.add(0, "for i := n - 1; i >= 0; i-- {")
			b.add(0, "%s", mv)
			b.add(0, "}")
			b.add(0, "return n")
			b.add(0, "}")
		}
		b.add(0, "for i := 0; i < n; i++ {")
		b.add(0, "%s", mv)
		b.add(0, "}")
		b.add(0, "return n")
		b.add(0, "}")
	})
	xs := f.ordered(func() string { return f.expr(c.Args[0]) }, func() string { return f.expr(c.Args[1]) })
	if p.isText(f.typeOf(c.Args[1])) {
		xs[1] = p.golf("Copy", xs[1])
	}
	return fmt.Sprintf("%s(%s, %s)", fn, xs[0], xs[1])
}
