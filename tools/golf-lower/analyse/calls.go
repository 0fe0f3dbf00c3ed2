package analyse

import (
	"go/ast"
	"go/token"
	"go/types"

	"golflower/kind"
)

// Callee is the function that a call names, nil if it calls a value.
func Callee(info *types.Info, c *ast.CallExpr) *types.Func {
	switch x := Generic(c.Fun).(type) {
	case *ast.Ident:
		fn, _ := info.Uses[x].(*types.Func)
		return fn
	case *ast.SelectorExpr:
		fn, _ := info.Uses[x.Sel].(*types.Func)
		return fn
	}
	return nil
}

// CalleeName is the full name of the function that a call names, "" if it calls a value.
func CalleeName(info *types.Info, c *ast.CallExpr) string {
	if fn := Callee(info, c); fn != nil {
		return fn.FullName()
	}
	return ""
}

// Generic is the name of a function in f[T].
func Generic(e ast.Expr) ast.Expr {
	switch x := ast.Unparen(e).(type) {
	case *ast.IndexExpr:
		return ast.Unparen(x.X)
	case *ast.IndexListExpr:
		return ast.Unparen(x.X)
	default:
		return x
	}
}

// BitsOf is y in *(*T)(unsafe.Pointer(&y)), where a float and an integer have the same bits; nil for something else.
func BitsOf(info *types.Info, e *ast.StarExpr) ast.Expr {
	c, ok := ast.Unparen(e.X).(*ast.CallExpr)
	if !ok || len(c.Args) != 1 || !info.Types[c.Fun].IsType() {
		return nil
	}
	u, ok := ast.Unparen(c.Args[0]).(*ast.CallExpr)
	if !ok || len(u.Args) != 1 || !info.Types[u.Fun].IsType() {
		return nil
	}
	if b, ok := kind.Under(info.TypeOf(u)).(*types.Basic); !ok || b.Kind() != types.UnsafePointer {
		return nil
	}
	a, ok := ast.Unparen(u.Args[0]).(*ast.UnaryExpr)
	if !ok || a.Op != token.AND {
		return nil
	}
	from, ok1 := kind.Under(info.TypeOf(a.X)).(*types.Basic)
	to, ok2 := kind.Under(info.TypeOf(e)).(*types.Basic)
	if !ok1 || !ok2 || from.Info()&(types.IsFloat|types.IsInteger) == 0 || to.Info()&(types.IsFloat|types.IsInteger) == 0 {
		return nil
	}
	sizes := types.SizesFor("gc", "amd64")
	if sizes.Sizeof(from) != sizes.Sizeof(to) {
		return nil
	}
	return a.X
}
