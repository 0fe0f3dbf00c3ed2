package lower

import (
	"fmt"
	"go/types"
	"strings"
)

// deepAny is reflect.DeepEqual of what two interfaces hold.
func (p *prog) deepAny() *comparison {
	if p.anyDeep == nil {
		p.usesAny = true
		p.anyDeep = &comparison{name: "golf_deep", same: func(d *dyn) string {
			return "return " + p.deep(d.t, "a."+d.field(), "b."+d.field())
		}}
	}
	return p.anyDeep
}

// deep compares two values as reflect.DeepEqual does; cycles are not looked for.
func (p *prog) deep(t types.Type, a, b string) string {
	l := p.lt(t)
	fn := func(fill func(w func(string, ...any))) string {
		f := p.aux("deep", typeKey(t), func(name string, buf *buffer) {
			buf.add(0, "func %s(a %s, b %s) bool {", name, l, l)
			fill(func(format string, args ...any) { buf.add(0, format, args...) })
			buf.add(0, "}")
		})
		return fmt.Sprintf("%s(%s, %s)", f, a, b)
	}
	switch u := under(t).(type) {
	case *types.Interface:
		return fmt.Sprintf("%s(%s, %s)", p.deepAny().name, a, b)
	case *types.Signature:
		return fmt.Sprintf("(%s == nil && %s == nil)", a, b)
	case *types.Pointer:
		if native(u.Elem()) != "" {
			return fmt.Sprintf("(%s == %s)", a, b)
		}
		return fn(func(w func(string, ...any)) {
			w("if a == b {")
			w("return true")
			w("}")
			w("if a == nil || b == nil {")
			w("return false")
			w("}")
			x, y := "a", "b"
			if !isRef(u.Elem()) {
				x, y = "a.v", "b.v"
			}
			w("return %s", p.deep(u.Elem(), x, y))
		})
	case *types.Slice:
		return fn(func(w func(string, ...any)) {
			w("if a == nil || b == nil {")
			w("return a == nil && b == nil")
			w("}")
			w("if %s != %s {", p.sliceLen(u.Elem(), "a"), p.sliceLen(u.Elem(), "b"))
			w("return false")
			w("}")
			at := func(s string) string { return p.at(u.Elem(), s, "i") }
			w("for i := 0; i < %s; i++ {", p.sliceLen(u.Elem(), "a"))
			w("if !(%s) {", p.deep(u.Elem(), at("a"), at("b")))
			w("return false")
			w("}")
			w("}")
			w("return true")
		})
	case *types.Array:
		return fn(func(w func(string, ...any)) {
			w("for i := 0; i < %d; i++ {", u.Len())
			w("if !(%s) {", p.deep(u.Elem(), p.slot(u.Elem(), "a[i]"), p.slot(u.Elem(), "b[i]")))
			w("return false")
			w("}")
			w("}")
			w("return true")
		})
	case *types.Map:
		return fn(func(w func(string, ...any)) {
			m := p.mapStruct(u)
			w("if a == nil || b == nil {")
			w("return a == nil && b == nil")
			w("}")
			w("if a.n != b.n {")
			w("return false")
			w("}")
			w("for i := 0; i < a.top; i++ {")
			w("if a.gone == nil || !a.gone[i] {")
			w("j := %s_find(b, a.keys[i])", m)
			w("if j < 0 || !(%s) {", p.deep(u.Elem(), "a.vals[i]", "b.vals[j]"))
			w("return false")
			w("}")
			w("}")
			w("}")
			w("return true")
		})
	case *types.Struct:
		if !isStruct(t) || native(t) != "" {
			return p.equal(t, a, b)
		}
		return fn(func(w func(string, ...any)) {
			cs := []string{}
			for i, f := range p.structOf(t).fields {
				if native(f.v.Type()) != "" {
					continue
				}
				r := p.fieldRef(t, i)
				cs = append(cs, p.deep(f.v.Type(), "a."+r, "b."+r))
			}
			if len(cs) == 0 {
				cs = []string{"true"}
			}
			w("return %s", strings.Join(cs, " && "))
		})
	}
	return p.equal(t, a, b)
}
