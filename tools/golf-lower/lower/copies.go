package lower

import (
	"go/ast"
	"go/token"
	"go/types"

	"golflower/analyse"
)

// Copies in their turn. Go's compiler copies some values where they stand, and not behind the calls (order.go): values of which
// the runtime takes the address, and which have none. An interface gets such a value, or it is the key of a map.

// sizes are those of the machines with 64 bits.
var sizes = types.SizesFor("gc", "amd64")

// findTargets notes which expressions of a body become values of interfaces.
func (p *prog) findTargets(body ast.Node, results *types.Tuple) {
	analyse.Targets(p.Info, body, results, func(e ast.Expr, to types.Type) { p.targets[e] = to })
}

// convertedFirst: an interface gets a copy of the value that is made in its turn.
func (f *fctx) convertedFirst(e ast.Expr) bool {
	to, ok := f.p.targets[e]
	if !ok || !isIface(f.p.subst(to)) {
		return false
	}
	t := f.typeOf(e)
	if b, ok := t.(*types.Basic); ok && b.Kind() == types.UntypedNil {
		return false
	}
	return t != nil && !isIface(t) && byAddress(t) && !f.hasAddress(e)
}

// keyFirst: a map is asked with a copy of the key that is made in its turn.
func (f *fctx) keyFirst(e *ast.IndexExpr) bool {
	m, ok := under(f.typeOf(e.X)).(*types.Map)
	return ok && f.keyCopied(m, e.Index)
}

// keyCopied is keyFirst for a key.
func (f *fctx) keyCopied(m *types.Map, key ast.Expr) bool {
	converted := isIface(m.Key()) && !isIface(f.typeOf(key))
	return keyInMemory(m.Key()) || keyByAddress(m) && (converted || !f.hasAddress(key))
}

// byNewString: a map is read by a string that is made of bytes. Go's compiler reads it at once, and makes no string.
func (f *fctx) byNewString(e *ast.IndexExpr) bool {
	c, ok := ast.Unparen(e.Index).(*ast.CallExpr)
	if !ok || !f.p.Info.Types[c.Fun].IsType() {
		return false
	}
	if _, isMap := under(f.typeOf(e.X)).(*types.Map); !isMap {
		return false
	}
	from, ok := under(f.typeOf(c.Args[0])).(*types.Slice)
	return ok && sizes.Sizeof(from.Elem()) == 1 && isText(f.typeOf(c))
}

// copiesText: the call is a conversion of a string to bytes or runes. Go's compiler makes the copy in its turn.
func (f *fctx) copiesText(c *ast.CallExpr) bool {
	if !f.p.Info.Types[c.Fun].IsType() || !isText(f.typeOf(c.Args[0])) {
		return false
	}
	_, isSlice := under(f.typeOf(c)).(*types.Slice)
	return isSlice
}

// comparedFirst: an operand of a comparison of structs or arrays has no address, and is copied in its turn.
func (f *fctx) comparedFirst(e *ast.BinaryExpr, x ast.Expr) bool {
	if e.Op != token.EQL && e.Op != token.NEQ {
		return false
	}
	switch under(f.typeOf(x)).(type) {
	case *types.Struct, *types.Array:
		return !f.hasAddress(x)
	}
	return false
}

// copiedToSend: a value that is sent has no address, or is converted. Go's compiler copies it before it reads the channel.
func (f *fctx) copiedToSend(e ast.Expr, t types.Type) bool {
	return !f.hasAddress(e) || isIface(t) && !isIface(f.typeOf(e))
}

// isText: the type is one of strings.
func isText(t types.Type) bool {
	b, ok := under(t).(*types.Basic)
	return ok && b.Info()&types.IsString != 0
}

// mostElem is the size of the largest element of a map that has functions of its own for some types of keys.
const mostElem = 128

// keyByAddress: the functions for the map take the address of a key.
func keyByAddress(m *types.Map) bool {
	if sizes.Sizeof(m.Elem()) > mostElem {
		return true
	}
	switch u := under(m.Key()).(type) {
	case *types.Basic:
		if u.Info()&types.IsString != 0 {
			return false
		}
		size := sizes.Sizeof(u)
		return u.Info()&types.IsInteger == 0 || size < 4
	case *types.Pointer, *types.Chan:
		return false
	}
	return !keyInMemory(m.Key())
}

// keyInMemory: the key is a struct or an array that is compared as one integer of 4 or 8 bytes.
func keyInMemory(t types.Type) bool {
	switch under(t).(type) {
	case *types.Struct, *types.Array:
		size := sizes.Sizeof(t)
		return (size == 4 || size == 8) && plainMemory(t)
	}
	return false
}

// plainMemory: values are equal exactly when their bytes are, and there are no pointers in them.
func plainMemory(t types.Type) bool {
	switch u := under(t).(type) {
	case *types.Basic:
		return u.Info()&(types.IsInteger|types.IsBoolean) != 0
	case *types.Array:
		return plainMemory(u.Elem())
	case *types.Struct:
		size := int64(0)
		for i := range u.NumFields() {
			if u.Field(i).Name() == "_" || !plainMemory(u.Field(i).Type()) {
				return false
			}
			size += sizes.Sizeof(u.Field(i).Type())
		}
		return size == sizes.Sizeof(u)
	}
	return false
}

// byAddress: the function that makes a value of an interface takes the address of the value.
func byAddress(t types.Type) bool {
	size, align := sizes.Sizeof(t), sizes.Alignof(t)
	switch {
	case size == 2 && align == 2, (size == 4 || size == 8) && align == size && !hasPointers(t):
		return false
	}
	_, isSlice := under(sole(t)).(*types.Slice)
	return !isSlice && !isText(sole(t))
}

// sole is the type of the only value in a value.
func sole(t types.Type) types.Type {
	switch u := under(t).(type) {
	case *types.Struct:
		if u.NumFields() == 1 {
			return sole(u.Field(0).Type())
		}
	case *types.Array:
		if u.Len() == 1 {
			return sole(u.Elem())
		}
	}
	return t
}

// hasPointers: there are pointers in the values of the type.
func hasPointers(t types.Type) bool {
	switch u := under(t).(type) {
	case *types.Basic:
		return u.Info()&types.IsString != 0 || u.Kind() == types.UnsafePointer
	case *types.Array:
		return u.Len() > 0 && hasPointers(u.Elem())
	case *types.Struct:
		for i := range u.NumFields() {
			if hasPointers(u.Field(i).Type()) {
				return true
			}
		}
		return false
	}
	return true
}

// hasAddress: the expression is a variable, or a part of one.
func (f *fctx) hasAddress(e ast.Expr) bool {
	switch e := ast.Unparen(e).(type) {
	case *ast.Ident, *ast.StarExpr:
		return true
	case *ast.SelectorExpr:
		s := f.p.Info.Selections[e]
		return s == nil || s.Kind() == types.FieldVal && (s.Indirect() || f.hasAddress(e.X))
	case *ast.IndexExpr:
		switch under(f.typeOf(e.X)).(type) {
		case *types.Array:
			return f.hasAddress(e.X)
		case *types.Slice, *types.Pointer:
			return true
		}
	}
	return false
}
