package lower

import (
	"fmt"
	"go/types"
	"strings"
)

// dyn is a type that is put into interfaces. All interfaces are one struct, golf_any, with a tag
// and a field for each such type; a nil interface is a nil pointer.
type dyn struct {
	t    types.Type
	tag  int
	num  int // of its field, which types that are held alike share
	done map[*dispatcher]bool
}

// A struct of the subset has at most 64 fields: the first types have fields of their own, the others are in groups.
const group = 50

func (d *dyn) field() string {
	if g := (d.num - 1) / group; g > 0 {
		return fmt.Sprintf("m%d.v%d", g, d.num)
	}
	return fmt.Sprintf("v%d", d.num)
}

// hold is the field with its value in a literal.
func (d *dyn) hold(x string) string {
	if g := (d.num - 1) / group; g > 0 {
		return fmt.Sprintf("m%d: (&golf_any_m%d{v%d: %s})", g, g, d.num, x)
	}
	return fmt.Sprintf("v%d: %s", d.num, x)
}

func (p *prog) dynOf(t types.Type) *dyn {
	p.usesAny = true
	k := typeKey(t)
	d := p.dyns[k]
	if d == nil {
		l := p.lt(t)
		if p.anyNums[l] == 0 {
			p.anyNums[l] = len(p.anyNums) + 1
			p.anyTypes = append(p.anyTypes, l)
		}
		d = &dyn{t: t, tag: len(p.dynList) + 1, num: p.anyNums[l], done: map[*dispatcher]bool{}}
		p.dyns[k] = d
		p.dynList = append(p.dynList, d)
	}
	return d
}

// toIface puts an owned value into an interface.
func (p *prog) toIface(x string, t types.Type) string {
	if b, ok := t.(*types.Basic); ok && b.Kind() == types.UntypedNil {
		return "nil"
	}
	d := p.dynOf(types.Default(t))
	return fmt.Sprintf("(&golf_any{tag: %d, %s})", d.tag, d.hold(x))
}

// dispatcher calls a method of an interface by the tag.
type dispatcher struct {
	name   string
	method *types.Func
	cases  []string
}

func anonTuple(t *types.Tuple) string {
	var s []string
	for i := 0; i < t.Len(); i++ {
		s = append(s, typeKey(t.At(i).Type()))
	}
	return strings.Join(s, ",")
}

func sameSig(a, b *types.Signature) bool {
	return anonTuple(a.Params()) == anonTuple(b.Params()) && anonTuple(a.Results()) == anonTuple(b.Results()) && a.Variadic() == b.Variadic()
}

func (p *prog) dispatcherOf(m *types.Func) *dispatcher {
	p.usesAny = true
	sig := m.Signature()
	pk := ""
	if !m.Exported() && m.Pkg() != nil {
		pk = m.Pkg().Path() + "."
	}
	key := pk + m.Name() + "(" + anonTuple(sig.Params()) + ")" + anonTuple(sig.Results())
	d := p.disps[key]
	if d == nil {
		d = &dispatcher{name: p.fresh("golf_method_" + ascii(m.Name())), method: m}
		p.disps[key] = d
		p.dispList = append(p.dispList, d)
	}
	return d
}

// dispatchRound finds the methods that the dispatchers need; true if one was new.
func (p *prog) dispatchRound() bool {
	progress := false
	for i := 0; i < len(p.dispList); i++ {
		d := p.dispList[i]
		sig := d.method.Signature()
		for j := 0; j < len(p.dynList); j++ {
			t := p.dynList[j]
			if t.done[d] {
				continue
			}
			t.done[d] = true
			progress = true
			sel := types.NewMethodSet(t.t).Lookup(d.method.Pkg(), d.method.Name())
			if sel == nil || !sameSig(sel.Obj().(*types.Func).Signature(), sig) {
				continue
			}
			var args []string
			for k := 0; k < sig.Params().Len(); k++ {
				args = append(args, fmt.Sprintf("a%d", k))
			}
			c := p.callOn("x."+t.field(), t.t, &method{fn: sel.Obj().(*types.Func), index: sel.Index()}, args)
			ret := ""
			if p.result(sig) != "" {
				ret = "return "
			}
			d.cases = append(d.cases, fmt.Sprintf("%d %s%s%s", t.tag, p.wrapped(t, sel, sig), ret, c))
		}
	}
	return progress
}

// wrapped is what comes before the call of a method with a value receiver on a pointer: the error of a nil pointer, as Go
// tells it. Each line ends.
func (p *prog) wrapped(d *dyn, sel *types.Selection, sig *types.Signature) string {
	fn := sel.Obj().(*types.Func)
	recv := fn.Signature().Recv()
	if !isPtr(d.t) || len(sel.Index()) > 1 || recv == nil || isPtr(recv.Type()) || isIface(recv.Type()) {
		return ""
	}
	name := typeText(deref(d.t))
	short := name[strings.LastIndex(name, ".")+1:]
	text := fmt.Sprintf("value method %s.%s called using nil *%s pointer", name, fn.Name(), short)
	raise := fmt.Sprintf("panic(%s)", quoted(text))
	if p.unwind {
		raise = fmt.Sprintf("golf_raise(%s(%s), 0)\n%s", p.stdFunc("runtime", "failure"), p.textConst(text),
			strings.TrimSpace("return "+p.nothing(p.result(sig))))
	}
	return fmt.Sprintf("if x.%s == nil {\n%s\n}\n", d.field(), raise)
}

// method is a method with the way to it through embedded fields.
type method struct {
	fn    *types.Func
	index []int
	args  []types.Type // its type arguments, nil for those of the receiver
}

// callOn is the call of a method (maybe promoted) on a value of type t.
func (p *prog) callOn(x string, t types.Type, sel *method, args []string) string {
	x, t = p.walkPath(x, t, sel.index[:len(sel.index)-1])
	fn := sel.fn
	if isIface(t) {
		return fmt.Sprintf("%s(%s)", p.dispatcherOf(fn).name, strings.Join(append([]string{x}, args...), ", "))
	}
	if native(deref(t)) != "" {
		return p.nativeCall(x, deref(t), fn.Name(), args)
	}
	recv := fn.Signature().Recv().Type()
	if !isPtr(recv) {
		if isRef(recv) {
			x = p.copyOf(recv, x)
		} else if isPtr(t) {
			x += ".v"
		}
	} else if !isPtr(t) && !isRef(t) {
		p.refuse("method with a pointer receiver on a type that is no struct")
	}
	return fmt.Sprintf("%s(%s)", p.funcRef(fn, sel.args), strings.Join(append([]string{x}, args...), ", "))
}

// walkPath goes through embedded fields.
func (p *prog) walkPath(x string, t types.Type, path []int) (string, types.Type) {
	for _, i := range path {
		st := deref(t)
		x += "." + p.fieldRef(st, i)
		t = under(st).(*types.Struct).Field(i).Type()
	}
	return x, t
}

// ifaceTest asks whether what an interface holds has the methods of another one.
type ifaceTest struct {
	name    string
	t       types.Type
	missing string // the function that names a method which is not there (bounds.go), "" if nobody asks
}

func (p *prog) testOf(t types.Type) *ifaceTest {
	k := typeKey(under(t))
	i := p.tests[k]
	if i == nil {
		i = &ifaceTest{name: p.fresh("golf_implements"), t: t}
		p.tests[k] = i
		p.testList = append(p.testList, i)
	}
	return i
}

// holds is the test whether interface x (a simple text) holds type t, or implements it.
func (p *prog) holds(x string, t types.Type) string {
	p.usesAny = true
	if isIface(t) {
		return fmt.Sprintf("%s(%s)", p.testOf(t).name, x)
	}
	return fmt.Sprintf("(%s != nil && %s.tag == %d)", x, x, p.dynOf(t).tag)
}

// tables writes what depends on the whole program.
func (p *prog) tables() {
	b := &p.decls
	for i := 0; i < len(p.testList); i++ {
		t := p.testList[i]
		it := under(t.t).(*types.Interface)
		b.add(0, "func %s(x *golf_any) bool {", t.name)
		b.add(0, "if x == nil {")
		b.add(0, "return false")
		b.add(0, "}")
		for _, d := range p.dynList {
			if types.Implements(d.t, it) {
				b.add(0, "if x.tag == %d {", d.tag)
				b.add(0, "return true")
				b.add(0, "}")
			}
		}
		b.add(0, "return false")
		b.add(0, "}")
		p.missingTable(t)
	}
	for _, d := range p.dispList {
		sig := d.method.Signature()
		params := []string{"x *golf_any"}
		for k := 0; k < sig.Params().Len(); k++ {
			params = append(params, fmt.Sprintf("a%d %s", k, p.lt(sig.Params().At(k).Type())))
		}
		b.add(0, "%s {", strings.TrimSpace(fmt.Sprintf("func %s(%s) %s", d.name, strings.Join(params, ", "), p.result(sig))))
		if p.unwind {
			b.add(0, "if x == nil {")
			b.add(0, "golf_raise(%s, 0)", p.nilError())
			b.add(0, "%s", strings.TrimSpace("return "+p.nothing(p.result(sig))))
			b.add(0, "}")
		}
		if len(d.cases) == 0 {
			b.add(0, "_ = x.tag")
		} else {
			b.add(0, "tag := x.tag")
		}
		for _, c := range d.cases {
			tag, call, _ := strings.Cut(c, " ")
			b.add(0, "if tag == %s {", tag)
			for l := range strings.SplitSeq(call, "\n") {
				b.add(0, "%s", l)
			}
			if p.result(sig) == "" {
				b.add(0, "return")
			}
			b.add(0, "}")
		}
		b.add(0, "panic(\"no such method\")")
		b.add(0, "}")
	}
	p.namesakeTables()
	p.formatTables()
	for _, c := range p.comparisons() {
		c.table(p)
	}
	p.comparableTable()
	p.incomparableTables()
	p.launchTable()
	if p.usesAny {
		eb := &buffer{}
		eb.add(0, "type golf_any struct {")
		eb.add(0, "tag int")
		var more []*buffer
		for i, l := range p.anyTypes {
			g := i / group
			if g > 0 && i%group == 0 {
				eb.add(0, "m%d *golf_any_m%d", g, g)
				m := &buffer{}
				m.add(0, "type golf_any_m%d struct {", g)
				more = append(more, m)
			}
			if g > 0 {
				more[g-1].add(0, "v%d %s", i+1, l)
			} else {
				eb.add(0, "v%d %s", i+1, l)
			}
		}
		eb.add(0, "}")
		for _, m := range more {
			m.add(0, "}")
			eb.lines = append(eb.lines, m.lines...)
		}
		b.lines = append(b.lines, eb.lines...)
	}
	p.applies()
	p.literalBytes()
}

// comparison is a function that compares two interfaces by the types that they hold.
type comparison struct {
	name  string
	same  func(d *dyn) string // the statement for two values of a type
	cases []string
	next  int // the first type that has no case yet
}

// round finds how the types that are new are compared; true if there was one.
func (c *comparison) round(p *prog) bool {
	progress := false
	for ; c.next < len(p.dynList); c.next++ {
		d := p.dynList[c.next]
		c.cases = append(c.cases, c.same(d))
		progress = true
	}
	return progress
}

// table writes the function.
func (c *comparison) table(p *prog) {
	b := &p.decls
	b.add(0, "func %s(a *golf_any, b *golf_any) bool {", c.name)
	b.add(0, "if a == nil || b == nil {")
	b.add(0, "return a == nil && b == nil")
	b.add(0, "}")
	b.add(0, "if a.tag != b.tag {")
	b.add(0, "return false")
	b.add(0, "}")
	for i, stmt := range c.cases {
		b.add(0, "if a.tag == %d {", p.dynList[i].tag)
		b.add(0, "%s", stmt)
		b.add(0, "}")
	}
	b.add(0, "return false")
	b.add(0, "}")
}

// comparisons are the functions of this kind that the program needs.
func (p *prog) comparisons() []*comparison {
	var all []*comparison
	for _, c := range []*comparison{p.anyEqual, p.anyDeep} {
		if c != nil {
			all = append(all, c)
		}
	}
	return all
}

// equalAny is == of interfaces.
func (p *prog) equalAny() *comparison {
	if p.anyEqual == nil {
		p.usesAny = true
		p.anyEqual = &comparison{name: "golf_any_equal", same: func(d *dyn) string {
			if types.Comparable(d.t) {
				return "return " + p.equal(d.t, "a."+d.field(), "b."+d.field())
			}
			return "panic(" + quoted("runtime error: comparing uncomparable type "+typeText(d.t)) + ")"
		}}
	}
	return p.anyEqual
}

var errorType = types.Universe.Lookup("error").Type()
var errorMethod = under(errorType).(*types.Interface).Method(0)
