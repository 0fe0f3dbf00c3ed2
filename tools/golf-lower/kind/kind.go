// Package kind has what the stages ask of a type.
package kind

import (
	"fmt"
	"go/types"
	"sort"
	"strings"
)

// Native is the name of a type of sync that the subset has, "" for another type.
func Native(t types.Type) string {
	n, ok := types.Unalias(t).(*types.Named)
	if !ok || n.Obj().Pkg() == nil || n.Obj().Pkg().Path() != "sync" {
		return ""
	}
	switch n.Obj().Name() {
	case "Mutex", "RWMutex", "WaitGroup", "Cond":
		return "sync." + n.Obj().Name()
	}
	return ""
}

// Under is the underlying type.
func Under(t types.Type) types.Type { return t.Underlying() }

// IsStruct: values of the type are structs with storage of their own.
func IsStruct(t types.Type) bool {
	s, ok := Under(t).(*types.Struct)
	if !ok {
		return false
	}
	if _, named := types.Unalias(t).(*types.Named); !named && s.NumFields() == 0 {
		return false // struct{} itself is of the subset
	}
	return true
}

// IsArray: values of the type are arrays.
func IsArray(t types.Type) bool { _, ok := Under(t).(*types.Array); return ok }

// IsRef: a value of the type is a reference to storage.
func IsRef(t types.Type) bool { return IsStruct(t) || IsArray(t) }

// IsIface: values of the type are interfaces.
func IsIface(t types.Type) bool { return types.IsInterface(t) }

// IsPtr: values of the type are pointers.
func IsPtr(t types.Type) bool { _, ok := Under(t).(*types.Pointer); return ok }

// Deref is the type behind a pointer, or the type itself.
func Deref(t types.Type) types.Type {
	if p, ok := Under(t).(*types.Pointer); ok {
		return p.Elem()
	}
	return t
}

// Key is a text that identical types share, and no others.
func Key(t types.Type) string {
	var sb strings.Builder
	writeKey(&sb, t)
	return sb.String()
}

func writeKey(sb *strings.Builder, t types.Type) {
	tuple := func(u *types.Tuple) {
		sb.WriteString("(")
		for i := 0; i < u.Len(); i++ {
			writeKey(sb, u.At(i).Type())
			sb.WriteString(",")
		}
		sb.WriteString(")")
	}
	switch t := types.Unalias(t).(type) {
	case *types.Basic:
		sb.WriteString(types.Typ[t.Kind()].Name()) // uint8 for byte
	case *types.Named:
		o := t.Obj()
		if o.Pkg() != nil {
			sb.WriteString(o.Pkg().Path() + ".")
			if o.Parent() != o.Pkg().Scope() {
				fmt.Fprintf(sb, "%d.", o.Pos()) // of types of one name that functions declare
			}
		}
		sb.WriteString(o.Name())
		for i := 0; i < t.TypeArgs().Len(); i++ {
			sb.WriteString("[")
			writeKey(sb, t.TypeArgs().At(i))
			sb.WriteString("]")
		}
	case *types.Pointer:
		sb.WriteString("*")
		writeKey(sb, t.Elem())
	case *types.Slice:
		sb.WriteString("[]")
		writeKey(sb, t.Elem())
	case *types.Array:
		fmt.Fprintf(sb, "[%d]", t.Len())
		writeKey(sb, t.Elem())
	case *types.Map:
		sb.WriteString("map[")
		writeKey(sb, t.Key())
		sb.WriteString("]")
		writeKey(sb, t.Elem())
	case *types.Chan:
		fmt.Fprintf(sb, "chan%d ", t.Dir())
		writeKey(sb, t.Elem())
	case *types.Signature:
		fmt.Fprintf(sb, "func%v", t.Variadic())
		tuple(t.Params())
		tuple(t.Results())
	case *types.Tuple:
		tuple(t)
	case *types.Struct:
		sb.WriteString("struct{")
		for i := 0; i < t.NumFields(); i++ {
			f := t.Field(i)
			if !f.Exported() && f.Pkg() != nil {
				sb.WriteString(f.Pkg().Path() + ".")
			}
			fmt.Fprintf(sb, "%s %v %q ", f.Name(), f.Embedded(), t.Tag(i))
			writeKey(sb, f.Type())
			sb.WriteString(";")
		}
		sb.WriteString("}")
	case *types.Interface:
		var ms []string
		for i := 0; i < t.NumMethods(); i++ {
			m := t.Method(i)
			n := m.Name()
			if !m.Exported() && m.Pkg() != nil {
				n = m.Pkg().Path() + "." + n
			}
			ms = append(ms, n+Key(m.Type()))
		}
		sort.Strings(ms)
		sb.WriteString("interface{" + strings.Join(ms, ";") + "}")
		if t.NumEmbeddeds() > 0 && !t.IsMethodSet() {
			sb.WriteString(t.String())
		}
	default:
		sb.WriteString(types.TypeString(t, (*types.Package).Path))
	}
}

// IsParam: the type is a type parameter.
func IsParam(t types.Type) bool {
	_, ok := types.Unalias(t).(*types.TypeParam)
	return ok
}

// HasParam: a type parameter occurs in the type.
func HasParam(t types.Type) bool {
	switch t := types.Unalias(t).(type) {
	case *types.TypeParam:
		return true
	case *types.Named:
		for i := 0; i < t.TypeArgs().Len(); i++ {
			if HasParam(t.TypeArgs().At(i)) {
				return true
			}
		}
	case *types.Pointer:
		return HasParam(t.Elem())
	case *types.Slice:
		return HasParam(t.Elem())
	case *types.Array:
		return HasParam(t.Elem())
	case *types.Map:
		return HasParam(t.Key()) || HasParam(t.Elem())
	case *types.Chan:
		return HasParam(t.Elem())
	case *types.Tuple:
		for i := 0; i < t.Len(); i++ {
			if HasParam(t.At(i).Type()) {
				return true
			}
		}
	case *types.Signature:
		return HasParam(t.Params()) || HasParam(t.Results())
	case *types.Struct:
		for i := 0; i < t.NumFields(); i++ {
			if HasParam(t.Field(i).Type()) {
				return true
			}
		}
	}
	return false
}
