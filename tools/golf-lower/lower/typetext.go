package lower

import (
	"fmt"
	"go/types"
	"strings"
)

// typeText is the name of a type as the run time of Go writes it: in %T, and in the texts of its errors.
func typeText(t types.Type) string { return namer(false).text(t) }

// namer writes names of types. In arguments of types a package has its path, and so have names that are not exported.
type namer bool

// qualified is a name with its package.
func (n namer) qualified(p *types.Package, name string) string {
	switch {
	case p == nil:
		return name
	case bool(n):
		return p.Path() + "." + name
	}
	return p.Name() + "." + name
}

func (n namer) text(t types.Type) string {
	switch t := types.Unalias(t).(type) {
	case *types.Basic:
		return types.Typ[t.Kind()].Name() // uint8 for byte
	case *types.Named:
		return n.named(t)
	case *types.Pointer:
		return "*" + n.text(t.Elem())
	case *types.Slice:
		return "[]" + n.text(t.Elem())
	case *types.Array:
		return fmt.Sprintf("[%d]%s", t.Len(), n.text(t.Elem()))
	case *types.Map:
		return "map[" + n.text(t.Key()) + "]" + n.text(t.Elem())
	case *types.Chan:
		return n.channel(t)
	case *types.Signature:
		return "func" + n.signature(t)
	case *types.Struct:
		return n.structure(t)
	case *types.Interface:
		return n.iface(t)
	}
	return types.TypeString(t, (*types.Package).Name)
}

func (n namer) named(t *types.Named) string {
	s := n.qualified(t.Obj().Pkg(), t.Obj().Name())
	var args []string
	for i := 0; i < t.TypeArgs().Len(); i++ {
		args = append(args, namer(true).text(t.TypeArgs().At(i)))
	}
	if args != nil {
		s += "[" + strings.Join(args, ",") + "]"
	}
	return s
}

func (n namer) channel(t *types.Chan) string {
	e := n.text(t.Elem())
	switch t.Dir() {
	case types.SendOnly:
		return "chan<- " + e
	case types.RecvOnly:
		return "<-chan " + e
	}
	if strings.HasPrefix(e, "<-") {
		e = "(" + e + ")"
	}
	return "chan " + e
}

func (n namer) signature(t *types.Signature) string {
	list := func(u *types.Tuple, variadic bool) string {
		var s []string
		for i := 0; i < u.Len(); i++ {
			x := n.text(u.At(i).Type())
			if variadic && i == u.Len()-1 {
				x = "..." + strings.TrimPrefix(x, "[]")
			}
			s = append(s, x)
		}
		return strings.Join(s, ", ")
	}
	s := "(" + list(t.Params(), t.Variadic()) + ")"
	switch t.Results().Len() {
	case 0:
		return s
	case 1:
		return s + " " + list(t.Results(), false)
	}
	return s + " (" + list(t.Results(), false) + ")"
}

func (n namer) structure(t *types.Struct) string {
	var s []string
	for i := 0; i < t.NumFields(); i++ {
		f := t.Field(i)
		x := n.text(f.Type())
		if name := f.Name(); !f.Embedded() {
			if bool(n) && !f.Exported() {
				name = n.qualified(f.Pkg(), name)
			}
			x = name + " " + x
		}
		if tag := t.Tag(i); tag != "" {
			x += fmt.Sprintf(" %q", tag)
		}
		s = append(s, x)
	}
	if s == nil {
		return "struct {}"
	}
	return "struct { " + strings.Join(s, "; ") + " }"
}

func (n namer) iface(t *types.Interface) string {
	var s []string
	for i := 0; i < t.NumMethods(); i++ {
		m := t.Method(i)
		name := m.Name()
		if !m.Exported() {
			name = n.qualified(m.Pkg(), name)
		}
		s = append(s, name+n.signature(m.Signature()))
	}
	if s == nil {
		return "interface {}"
	}
	return "interface { " + strings.Join(s, "; ") + " }"
}
