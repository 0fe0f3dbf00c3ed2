package lower

import (
	"fmt"
	"go/token"
	"go/types"
	"slices"
	"strings"
)

// This file says how the values of a Go type are held in the subset.
//
//	integers, bytes, runes     int (the sized ones are wrapped after arithmetic)
//	struct values, arrays      a reference to storage of their own: copied where Go copies
//	*T for a struct T          the same reference
//	*T for another T           a box: a struct with the one field v
//	functions                  *fnN: a tag and an environment (defunctionalization)
//	interfaces                 *golf_any: a tag and the value
//	maps                       *mapN: an association list
//	slices                     []E, or *slN with offset and length if they are appended to or sliced
//	several results            *resN

// noType is what is told of a type that could not be checked.
const noType = "a type that _std has not"

// lt is the type of the subset that holds values of t.
func (p *prog) lt(t types.Type) string {
	t = types.Unalias(t)
	if n, ok := t.(*types.Named); ok && native(t) == "" {
		switch u := n.Underlying().(type) {
		case *types.Slice, *types.Map:
			return p.recursive(t, typeKey(t))
		case *types.Pointer:
			if !isRef(u.Elem()) {
				return p.recursive(t, typeKey(t))
			}
		}
	}
	return p.plainType(t)
}

// recursive is lt for a type that may contain itself: then the struct that holds it has a name before it is written.
func (p *prog) recursive(t types.Type, key string) string {
	if name := p.ownName[key]; name != "" {
		return "*" + name
	}
	if !slices.Contains(p.open, key) {
		p.open = append(p.open, key)
		defer func() { p.open = p.open[:len(p.open)-1] }()
		return p.plainType(t)
	}
	if s, ok := under(t).(*types.Slice); ok && !p.grows(s.Elem()) {
		p.needs.grow[typeKey(s.Elem())] = true // a slice of the subset alone has no name
		panic(errAgain)
	}
	p.ownName[key] = p.fresh("own_" + mangle(typeText(t)))
	return "*" + p.ownName[key]
}

// plainType is lt without regard to types that contain themselves.
func (p *prog) plainType(t types.Type) string {
	p.depth++
	defer func() { p.depth-- }()
	if p.depth > 100 {
		p.refuse("recursive type %s", t)
	}
	if isParam(t) {
		p.refuse("type parameter %s", t)
	}
	if n := native(t); n != "" {
		if n == "sync.Cond" && p.GenericCond {
			return "*" + p.condStruct()
		}
		p.imports["sync"] = true
		return "*" + n
	}
	switch u := under(t).(type) {
	case *types.Basic:
		switch {
		case u.Kind() == types.Invalid:
			p.refuse(noType)
		case u.Info()&types.IsFloat != 0, u.Info()&types.IsInteger != 0, u.Kind() == types.UnsafePointer, u.Kind() == types.UntypedNil:
			return "int"
		case u.Info()&types.IsBoolean != 0:
			return "bool"
		case u.Info()&types.IsString != 0:
			if p.texts && !isLit(t) {
				return "*" + p.structName(p.textType())
			}
			return "string"
		}
		p.refuse("type %s", t)
	case *types.Struct:
		if !isStruct(t) {
			return "struct{}"
		}
		return "*" + p.structName(t)
	case *types.Pointer:
		if isRef(u.Elem()) {
			return p.lt(u.Elem())
		}
		return "*" + p.box(p.lt(u.Elem()))
	case *types.Slice:
		if p.grows(u.Elem()) {
			return "*" + p.sliceStruct(u.Elem())
		}
		return "[]" + p.cell(u.Elem())
	case *types.Array:
		return "[]" + p.cell(u.Elem())
	case *types.Map:
		return "*" + p.mapStruct(u)
	case *types.Chan:
		e := p.lt(u.Elem())
		switch u.Dir() {
		case types.SendOnly:
			return "chan<- " + e
		case types.RecvOnly:
			return "<-chan " + e
		}
		if strings.HasPrefix(e, "<-") {
			p.refuse("channel of receive-only channels")
		}
		return "chan " + e
	case *types.Signature:
		return "*" + p.fnStruct(u).name
	case *types.Interface:
		p.usesAny = true
		return "*golf_any"
	case *types.Tuple:
		return "*" + p.resStruct(u)
	}
	p.refuse("type %s", t)
	return ""
}

// mangle makes a name of a type of the subset.
func mangle(s string) string {
	r := strings.NewReplacer("*golf_Text", "string", "*golf_any", "any", "chan<- ", "sendchan_", "<-chan ", "recvchan_", "chan ", "chan_", "[]", "s_", "*", "p_", "struct{}", "empty", ".", "_", " ", "_", "(", "_", ")", "_", ",", "_")
	return strings.Map(func(c rune) rune {
		if c == '_' || '0' <= c && c <= '9' || 'a' <= c && c <= 'z' || 'A' <= c && c <= 'Z' {
			return c
		}
		return '_'
	}, r.Replace(s))
}

// aux makes a struct (with what belongs to it) once for a key.
func (p *prog) aux(kind, key string, fill func(name string, b *buffer)) string {
	k := kind + ":" + key
	if n, ok := p.auxNames[k]; ok {
		return n
	}
	name := p.ownStruct(kind)
	if name == "" {
		name = mangle(key)
		if len(name) > 40 {
			name = fmt.Sprint(len(p.auxNames))
		}
		name = p.fresh(kind + "_" + name)
	}
	p.auxNames[k] = name
	b := &buffer{}
	done := false
	defer func() {
		if !done { // refused
			delete(p.auxNames, k)
		}
	}()
	fill(name, b)
	done = true
	p.decls.lines = append(p.decls.lines, b.lines...)
	return name
}

// ownStruct is the name of the struct of the type that is being held now, if it contains itself and has no struct yet.
func (p *prog) ownStruct(kind string) string {
	if len(p.open) == 0 || kind != "slice" && kind != "map" && kind != "box" {
		return ""
	}
	key := p.open[len(p.open)-1]
	name := p.ownName[key]
	if name == "" || p.ownDone[key] {
		return ""
	}
	p.ownDone[key] = true
	return name
}

// box is the storage of a variable that is shared or pointed to.
func (p *prog) box(elem string) string {
	return p.aux("box", elem, func(name string, b *buffer) {
		b.add(0, "type %s struct {", name)
		b.add(0, "v %s", elem)
		b.add(0, "}")
	})
}

// resStruct holds several results.
func (p *prog) resStruct(t *types.Tuple) string {
	var ls []string
	for i := 0; i < t.Len(); i++ {
		ls = append(ls, p.lt(t.At(i).Type()))
	}
	return p.aux("res", strings.Join(ls, ","), func(name string, b *buffer) {
		b.add(0, "type %s struct {", name)
		for i, l := range ls {
			b.add(0, "r%d %s", i, l)
		}
		b.add(0, "}")
	})
}

// field is how a field of a struct is held.
type field struct {
	v     *types.Var
	name  string
	boxed bool
}

// structInfo is a struct of the output.
type structInfo struct {
	name   string
	fields []field
	addr   bool // it has a number as its address
	typ    types.Type
}

func (p *prog) structName(t types.Type) string { return p.structOf(t).name }

func (p *prog) structOf(t types.Type) *structInfo {
	t = types.Unalias(t)
	n, named := t.(*types.Named)
	k := typeKey(t)
	if s, ok := p.structs[k]; ok {
		return s
	}
	s := &structInfo{typ: t}
	p.structs[k] = s
	if named {
		var args []types.Type
		for i := 0; i < n.TypeArgs().Len(); i++ {
			args = append(args, n.TypeArgs().At(i))
		}
		s.name = p.instName(n.Obj(), args)
	} else {
		s.name = p.fresh("anon")
	}
	s.addr = p.Addressed[typeKey(t)]
	u := under(t).(*types.Struct)
	for i := 0; i < u.NumFields(); i++ {
		v := u.Field(i)
		name := ascii(v.Name())
		if name == "_" {
			name = fmt.Sprintf("blank_%d", i)
		}
		f := field{v: v, name: name, boxed: p.BoxedFields[v.Origin()] && !isRef(v.Type())}
		s.fields = append(s.fields, f)
	}
	b := &buffer{}
	orig := token.NoPos
	if named {
		orig = p.orig(n.Obj().Pos())
	}
	b.add(orig, "type %s struct {", s.name)
	for _, f := range s.fields {
		l := p.lt(f.v.Type())
		if f.boxed {
			l = "*" + p.box(l)
		}
		b.add(0, "%s %s", f.name, l)
	}
	if s.addr {
		b.add(0, "golf_addr int")
	}
	b.add(0, "}")
	p.chunk(b)
	return s
}

// fieldRef is the text after the dot for a field.
func (p *prog) fieldRef(t types.Type, i int) string {
	f := p.structOf(t).fields[i]
	if f.boxed {
		return f.name + ".v"
	}
	return f.name
}

// newStruct allocates a struct with the given field values (by index; evaluated in the given
// order); the rest is zero.
func (p *prog) newStruct(t types.Type, given map[int]string, order ...int) string {
	if n := native(t); n != "" {
		if n == "sync.Cond" && p.GenericCond {
			return p.condNew("nil")
		}
		p.imports["sync"] = true
		return "(&" + n + "{})"
	}
	s := p.structOf(t)
	var parts []string
	explicit := len(order) > 0
	for i := range s.fields {
		if _, ok := given[i]; !ok || !explicit {
			order = append(order, i)
		}
	}
	for _, i := range order {
		f := s.fields[i]
		v, ok := given[i]
		if !ok && !isRef(f.v.Type()) && !f.boxed {
			continue
		}
		if !ok {
			v = p.zero(f.v.Type())
		}
		if f.boxed {
			v = fmt.Sprintf("(&%s{v: %s})", p.box(p.lt(f.v.Type())), v)
		}
		parts = append(parts, f.name+": "+v)
	}
	if s.addr {
		parts = append(parts, "golf_addr: "+p.stdFunc("golf", "NextAddr")+"()")
	}
	return fmt.Sprintf("(&%s{%s})", s.name, strings.Join(parts, ", "))
}

// zero is the zero value of a type.
func (p *prog) zero(t types.Type) string {
	if isStruct(t) {
		return p.newStruct(t, nil)
	}
	if a, ok := under(t).(*types.Array); ok {
		return p.makeNative(a.Elem(), fmt.Sprint(a.Len()))
	}
	switch p.lt(t) {
	case "int":
		return "0"
	case "bool":
		return "false"
	case "string":
		return `""`
	case "struct{}":
		return "struct{}{}"
	}
	return "nil"
}

// makeNative makes a slice of the subset whose elements are zero values of their own.
func (p *prog) makeNative(elem types.Type, n string) string {
	l := p.cell(elem)
	if !isRef(elem) && !p.boxes(elem) {
		return fmt.Sprintf("make([]%s, %s)", l, n)
	}
	f := p.aux("make", typeKey(elem), func(name string, b *buffer) {
		b.add(0, "func %s(n int) []%s {", name, l)
		b.add(0, "s := make([]%s, n)", l)
		b.add(0, "for i := 0; i < n; i++ {")
		b.add(0, "s[i] = %s", p.newCell(elem, p.zero(elem)))
		b.add(0, "}")
		b.add(0, "return s")
		b.add(0, "}")
	})
	return fmt.Sprintf("%s(%s)", f, n)
}

// copyOf is a copy of a struct or array value.
func (p *prog) copyOf(t types.Type, x string) string {
	if !isRef(t) {
		return x
	}
	if native(t) != "" {
		p.refuse("copy of a %s", native(t))
	}
	if a, ok := under(t).(*types.Array); ok {
		l := p.cell(a.Elem())
		f := p.aux("copyarray", typeKey(a.Elem()), func(name string, b *buffer) {
			b.add(0, "func %s(s []%s) []%s {", name, l, l)
			b.add(0, "t := make([]%s, len(s))", l)
			b.add(0, "for i := 0; i < len(s); i++ {")
			b.add(0, "t[i] = %s", p.newCell(a.Elem(), p.copyOf(a.Elem(), p.slot(a.Elem(), "s[i]"))))
			b.add(0, "}")
			b.add(0, "return t")
			b.add(0, "}")
		})
		return fmt.Sprintf("%s(%s)", f, x)
	}
	s := p.structOf(t)
	f := p.aux("copy", s.name, func(name string, b *buffer) {
		given := map[int]string{}
		for i, f := range s.fields {
			given[i] = p.copyOf(f.v.Type(), "s."+p.fieldRef(t, i))
		}
		v := p.newStruct(t, given)
		b.add(0, "func %s(s *%s) *%s {", name, s.name, s.name)
		b.add(0, "return %s", v)
		b.add(0, "}")
	})
	return fmt.Sprintf("%s(%s)", f, x)
}

// set stores a value into the storage of a struct or array.
func (p *prog) set(t types.Type, dst, src string) string {
	if native(t) != "" {
		if isWord(dst) {
			p.refuse("assignment to a %s", native(t))
		}
		return dst + " = " + src // a new one: a copy has been refused
	}
	if a, ok := under(t).(*types.Array); ok {
		l := p.cell(a.Elem())
		f := p.aux("setarray", typeKey(a.Elem()), func(name string, b *buffer) {
			b.add(0, "func %s(d []%s, s []%s) {", name, l, l)
			b.add(0, "for i := 0; i < len(s); i++ {")
			if isRef(a.Elem()) {
				b.add(0, "%s", p.set(a.Elem(), "d[i]", "s[i]"))
			} else {
				b.add(0, "%s = %s", p.slot(a.Elem(), "d[i]"), p.slot(a.Elem(), "s[i]"))
			}
			b.add(0, "}")
			b.add(0, "}")
		})
		return fmt.Sprintf("%s(%s, %s)", f, dst, src)
	}
	s := p.structOf(t)
	f := p.aux("set", s.name, func(name string, b *buffer) {
		b.add(0, "func %s(d *%s, s *%s) {", name, s.name, s.name)
		for i, f := range s.fields {
			r := p.fieldRef(t, i)
			if isRef(f.v.Type()) {
				b.add(0, "%s", p.set(f.v.Type(), "d."+r, "s."+r))
			} else {
				b.add(0, "d.%s = s.%s", r, r)
			}
		}
		b.add(0, "}")
	})
	return fmt.Sprintf("%s(%s, %s)", f, dst, src)
}

// pointsToArray: the type is that of pointers to arrays. They are held as slices, which the subset does not compare.
func pointsToArray(t types.Type) bool { return isPtr(t) && isArray(deref(t)) }

// equal compares two values of a type.
func (p *prog) equal(t types.Type, a, b string) string {
	switch {
	case isIface(t):
		return fmt.Sprintf("%s(%s, %s)", p.equalAny().name, a, b)
	case isArray(t):
		el := under(t).(*types.Array).Elem()
		l := p.cell(el)
		f := p.aux("equalarray", typeKey(el), func(name string, b *buffer) {
			c := p.equal(el, p.slot(el, "a[i]"), p.slot(el, "b[i]"))
			b.add(0, "func %s(a []%s, b []%s) bool {", name, l, l)
			b.add(0, "for i := 0; i < len(a); i++ {")
			b.add(0, "if !(%s) {", c)
			b.add(0, "return false")
			b.add(0, "}")
			b.add(0, "}")
			b.add(0, "return true")
			b.add(0, "}")
		})
		return fmt.Sprintf("%s(%s, %s)", f, a, b)
	case isStruct(t):
		if native(t) != "" {
			p.refuse("comparison of a %s", native(t))
		}
		s := p.structOf(t)
		f := p.aux("equal", s.name, func(name string, b *buffer) {
			var cs []string
			for i, f := range s.fields {
				if f.v.Name() != "_" {
					r := p.fieldRef(t, i)
					cs = append(cs, p.equal(f.v.Type(), "a."+r, "b."+r))
				}
			}
			if cs == nil {
				cs = []string{"true"}
			}
			b.add(0, "func %s(a *%s, b *%s) bool {", name, s.name, s.name)
			b.add(0, "return %s", strings.Join(cs, " && "))
			b.add(0, "}")
		})
		return fmt.Sprintf("%s(%s, %s)", f, a, b)
	}
	if p.lt(t) == "struct{}" {
		return "true"
	}
	if pointsToArray(t) {
		return fmt.Sprintf("%s(%s, %s)", p.unequalArrays(t), a, b)
	}
	if isFloat(t) {
		return fmt.Sprintf("%s(%s, %s)", p.floatFunc(t, "feq%d"), a, b)
	}
	if p.isText(t) {
		return p.golf("Equal", a, b)
	}
	return fmt.Sprintf("(%s == %s)", a, b)
}

// unequalArrays is the function that compares pointers to arrays, of which one must be nil: others end the program.
func (p *prog) unequalArrays(t types.Type) string {
	return p.aux("equal", "pointers "+typeKey(t), func(name string, b *buffer) {
		l := p.lt(t)
		b.add(0, "func %s(a %s, b %s) bool {", name, l, l)
		b.add(0, "if a != nil && b != nil {")
		b.add(0, "panic(\"lowering: comparing pointers to arrays is not supported\")")
		b.add(0, "}")
		b.add(0, "return a == nil && b == nil")
		b.add(0, "}")
	})
}
