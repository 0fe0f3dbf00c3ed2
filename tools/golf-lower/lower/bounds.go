package lower

import (
	"fmt"
	"go/ast"
	"go/types"
	"strings"
)

// The checks of a program that recovers: what the run time of Go looks for, with its texts.

// sliceBounds raises the error of the bounds of a slice expression. xs are the operand and its bounds, a negative literal
// for a bound that is not there; room is what the last bound may be, and what names it.
func (f *fctx) sliceBounds(e *ast.SliceExpr, xs []string, length, room, what string) {
	if !f.unwinds() || !f.user() {
		return
	}
	f.pinBounds(e, xs)
	text := f.p.textf
	below := func(x, format string, operands ...string) {
		f.emit("if %s {", x)
		f.fail(text("runtime error: slice bounds out of range "+format, operands...))
		f.emit("}")
	}
	lo, hi := xs[1], xs[2]
	switch {
	case e.Slice3:
		top := xs[3]
		below(top+" < 0", "[::%d]", top)
		below(top+" > "+room, "[::%d] with "+what+" %d", top, room)
		below(hi+" < 0", "[:%d:]", hi)
		below(hi+" > "+top, "[:%d:%d]", hi, top)
		below(lo+" < 0", "[%d::]", lo)
		below(lo+" > "+hi, "[%d:%d:]", lo, hi)
		return
	case e.High != nil:
		below(hi+" < 0", "[:%d]", hi)
		below(hi+" > "+room, "[:%d] with "+what+" %d", hi, room)
	default:
		hi = length
	}
	if e.Low != nil {
		below(lo+" < 0", "[%d:]", lo)
		below(lo+" > "+hi, "[%d:%d]", lo, hi)
	}
}

// pinBounds evaluates the operands of a slice expression once.
func (f *fctx) pinBounds(e *ast.SliceExpr, xs []string) {
	for i, b := range []ast.Expr{e.X, e.Low, e.High, e.Max} {
		if b != nil {
			xs[i] = f.pin(xs[i])
		}
	}
}

// assertError raises the error of a type assertion on x, whose static type is from.
func (f *fctx) assertError(x string, from, to types.Type) {
	if !f.unwinds() {
		return
	}
	p := f.p
	f.emit("if !%s {", p.holds(x, to))
	is := p.textConst("interface conversion: " + typeText(from) + " is ")
	if isIface(to) {
		f.emit("if %s == nil {", x)
		f.fail(p.textConst("interface conversion: interface is nil, not " + typeText(to)))
		f.emit("}")
		missing := p.golf("Join", p.textConst(" is not "+typeText(to)+": missing method "), p.missing(to)+"("+x+")")
		f.failConversion(p.golf("Join", p.golf("Join", p.textConst("interface conversion: "), p.typeName(x, from)), missing))
	} else {
		is = p.golf("Join", is, p.dynamicName(x, from))
		is = p.golf("Join", is, p.textConst(", not "+typeText(to)))
		f.failConversion(p.golf("Join", is, p.namesake(to)+"("+x+")"))
	}
	f.emit("}")
}

// failConversion raises a TypeAssertionError.
func (f *fctx) failConversion(text string) {
	f.raise(fmt.Sprintf("%s(%s)", f.p.stdFunc("runtime", "conversion"), text))
}

// dynamicName is the name of the type that an interface holds, nil if it holds none.
func (p *prog) dynamicName(x string, from types.Type) string {
	fn := p.aux("golf", "dynamic name", func(name string, b *buffer) {
		b.add(0, "func %s(x *golf_any) *%s {", name, p.structName(p.textType()))
		b.add(0, "if x == nil {")
		b.add(0, "return %s", p.textConst("nil"))
		b.add(0, "}")
		b.add(0, "return %s", p.typeName("x", from))
		b.add(0, "}")
	})
	return fn + "(" + x + ")"
}

// namesake is the function that says where another type with the name of this one comes from, if an interface holds such a
// type.
func (p *prog) namesake(t types.Type) string {
	k := typeKey(t)
	n := p.namesakes[k]
	if n == nil {
		n = &namesake{p.fresh("golf_namesake"), t}
		p.namesakes[k] = n
		p.sakeList = append(p.sakeList, n)
		p.stdFunc("golf", "Const")
	}
	return n.name
}

// namesake is a type with the function of namesake.
type namesake struct {
	name string
	t    types.Type
}

// namesakeTables writes the functions.
func (p *prog) namesakeTables() {
	b := &p.decls
	for _, n := range p.sakeList {
		b.add(0, "func %s(x *golf_any) *%s {", n.name, p.structName(p.textType()))
		for _, d := range p.dynList {
			if typeText(d.t) != typeText(n.t) || types.Identical(d.t, n.t) {
				continue
			}
			where := " (types from different scopes)"
			if packageOf(d.t) != packageOf(n.t) {
				where = " (types from different packages)"
			}
			b.add(0, "if x != nil && x.tag == %d {", d.tag)
			b.add(0, "return %s", p.textConst(where))
			b.add(0, "}")
		}
		b.add(0, "return nil")
		b.add(0, "}")
	}
}

// packageOf is the package that declares a type, or nil.
func packageOf(t types.Type) *types.Package {
	if n, ok := types.Unalias(t).(*types.Named); ok {
		return n.Obj().Pkg()
	}
	return nil
}

// missing is the function that names the first method of an interface which the type in another one lacks.
func (p *prog) missing(t types.Type) string {
	test := p.testOf(t)
	if test.missing == "" {
		test.missing = p.fresh("golf_missing")
		p.stdFunc("golf", "Const")
	}
	return test.missing
}

// missingTable writes the function of missing.
func (p *prog) missingTable(test *ifaceTest) {
	if test.missing == "" {
		return
	}
	b := &p.decls
	it := under(test.t).(*types.Interface)
	b.add(0, "func %s(x *golf_any) *%s {", test.missing, p.structName(p.textType()))
	for _, d := range p.dynList {
		if m, _ := types.MissingMethod(d.t, it, true); m != nil {
			b.add(0, "if x.tag == %d {", d.tag)
			b.add(0, "return %s", p.textConst(firstMissing(d.t, it, m.Name())))
			b.add(0, "}")
		}
	}
	b.add(0, "return nil")
	b.add(0, "}")
}

// firstMissing is the first of the methods, in the order of their names, that a type lacks.
func firstMissing(t types.Type, it *types.Interface, name string) string {
	set := types.NewMethodSet(t)
	for i := 0; i < it.NumMethods(); i++ {
		m := it.Method(i)
		sel := set.Lookup(m.Pkg(), m.Name())
		if strings.Compare(m.Name(), name) < 0 && (sel == nil || !sameSig(sel.Obj().(*types.Func).Signature(), m.Signature())) {
			name = m.Name()
		}
	}
	return name
}
