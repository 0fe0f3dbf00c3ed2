package lower

import (
	"fmt"
	"go/constant"
	"go/types"
)

// What cannot be compared. A type of Go that cannot be compared may be in an interface, so that a comparison or a key of a
// map is looked at first where it is written.

// How the errors begin.
const (
	unhashable      = "runtime error: hash of unhashable type "
	unhashableEmpty = "hash of unhashable type: "
	uncomparable    = "runtime error: comparing uncomparable type "
)

// holdsIface: a value of the type has an interface in it that == compares.
func holdsIface(t types.Type) bool {
	switch u := under(t).(type) {
	case *types.Interface:
		return true
	case *types.Array:
		return holdsIface(u.Elem())
	case *types.Struct:
		for i := 0; i < u.NumFields(); i++ {
			if holdsIface(u.Field(i).Type()) {
				return true
			}
		}
	}
	return false
}

// hashable raises the error of a key that has no hash, and gives the key. m is the map in which it is looked for, with the
// name of its functions, or "" if it is stored: Go tells of an empty map in other words.
func (f *fctx) hashable(t *types.Map, key, m string) string {
	p := f.p
	if !holdsIface(t.Key()) || key == "nil" {
		return key
	}
	key = f.pin(key)
	if m == "" {
		f.failWith(p.incomparable(t.Key(), key, unhashable))
		return key
	}
	f.emit("if %s(%s) == 0 {", p.mapFunc(t, "len"), m)
	f.failWith(p.incomparable(t.Key(), key, unhashableEmpty))
	f.emit("} else {")
	f.failWith(p.incomparable(t.Key(), key, unhashable))
	f.emit("}")
	return key
}

// comparable raises the error of two interfaces whose values cannot be compared, and evaluates both before.
func (f *fctx) comparable(t types.Type, xy []string) {
	if !isIface(t) || !f.user() || xy[0] == "nil" || xy[1] == "nil" {
		return
	}
	for i := range xy {
		xy[i] = f.pin(xy[i])
	}
	p := f.p
	cond := fmt.Sprintf("%s != nil && %s != nil && %s.tag == %s.tag", xy[0], xy[1], xy[0], xy[1])
	f.emit("if %s {", cond)
	f.failWith(p.incomparable(t, xy[0], uncomparable))
	f.emit("}")
}

// failWith raises the error of a text, unless it is empty.
func (f *fctx) failWith(text string) {
	p := f.p
	t := f.temp(text)
	f.emit("if %s != %s {", t, p.nothing(p.stringType()))
	switch {
	case f.unwinds():
		f.fail(t)
	case p.texts:
		f.emit("%s", p.golf("Say", t))
		f.emit("panic(%s)", quoted(tie))
	default:
		f.emit("panic(%s)", t)
	}
	f.emit("}")
}

// stringType is the type of the subset that holds strings.
func (p *prog) stringType() string {
	if p.texts {
		return "*" + p.structName(p.textType())
	}
	return "string"
}

// incomparable is a text with the name of the type that keeps a value from being compared, empty if there is none.
func (p *prog) incomparable(t types.Type, x, text string) string {
	result := p.stringType()
	part := func(b *buffer, t types.Type, x string) {
		name := fmt.Sprint("t", len(b.lines))
		b.add(0, "%s := %s", name, p.incomparable(t, x, text))
		b.add(0, "if %s != %s {", name, p.nothing(result))
		b.add(0, "return %s", name)
		b.add(0, "}")
	}
	switch u := under(t).(type) {
	case *types.Interface:
		if p.uncompared[text] == "" {
			p.usesAny = true
			p.uncompared[text] = p.fresh("golf_incomparable")
			p.nothing(result)
		}
		return fmt.Sprintf("%s(%s)", p.uncompared[text], x)
	case *types.Array:
		return fmt.Sprintf("%s(%s)", p.aux("incomparable", text+typeKey(t), func(name string, b *buffer) {
			b.add(0, "func %s(x %s) %s {", name, p.lt(t), result)
			b.add(0, "for i := 0; i < len(x); i++ {")
			part(b, u.Elem(), p.slot(u.Elem(), "x[i]"))
			b.add(0, "}")
			b.add(0, "return %s", p.nothing(result))
			b.add(0, "}")
		}), x)
	case *types.Struct:
		return fmt.Sprintf("%s(%s)", p.aux("incomparable", text+typeKey(t), func(name string, b *buffer) {
			b.add(0, "func %s(x %s) %s {", name, p.lt(t), result)
			for i := 0; i < u.NumFields(); i++ {
				if holdsIface(u.Field(i).Type()) && u.Field(i).Name() != "_" {
					part(b, u.Field(i).Type(), "x."+p.fieldRef(t, i))
				}
			}
			b.add(0, "return %s", p.nothing(result))
			b.add(0, "}")
		}), x)
	}
	return p.nothing(result)
}

// incomparableTables write the functions for what an interface holds.
func (p *prog) incomparableTables() {
	for _, text := range []string{unhashable, unhashableEmpty, uncomparable} {
		if p.uncompared[text] == "" {
			continue
		}
		b := &buffer{}
		b.add(0, "func %s(x *golf_any) %s {", p.uncompared[text], p.stringType())
		b.add(0, "if x == nil {")
		b.add(0, "return %s", p.nothing(p.stringType()))
		b.add(0, "}")
		for _, d := range p.dynList {
			value := ""
			switch {
			case !types.Comparable(d.t):
				value = p.constant(constant.MakeString(text+typeText(d.t)), types.Typ[types.String])
			case holdsIface(d.t) && text != uncomparable: // what is in two values that are compared is looked at in its turn
				value = p.incomparable(d.t, "x."+d.field(), text)
			default:
				continue
			}
			b.add(0, "if x.tag == %d {", d.tag)
			b.add(0, "return %s", value)
			b.add(0, "}")
		}
		b.add(0, "return %s", p.nothing(p.stringType()))
		b.add(0, "}")
		p.decls.lines = append(p.decls.lines, b.lines...)
	}
}
