package lower

import (
	"fmt"
	"go/ast"
	"go/token"
	"go/types"

	"golflower/analyse"
)

// bitsOf is y in *(*T)(unsafe.Pointer(&y)), where a float and an integer have the same bits; nil for something else.
func (f *fctx) bitsOf(e *ast.StarExpr) ast.Expr { return analyse.BitsOf(f.p.Info, e) }

// unsafeCall is unsafe.String of the bytes of a slice, or unsafe.Slice of those of a string: copies, where Go shares.
func (f *fctx) unsafeCall(c *ast.CallExpr) (string, bool) {
	p := f.p
	sel, ok := ast.Unparen(c.Fun).(*ast.SelectorExpr)
	if !ok {
		return "", false
	}
	b, ok := p.Info.Uses[sel.Sel].(*types.Builtin)
	if ok && b.Name() == "Sizeof" {
		return fmt.Sprint(types.SizesFor("gc", "amd64").Sizeof(f.typeOf(c.Args[0]))), true
	}
	if ok && b.Name() == "Alignof" {
		return fmt.Sprint(types.SizesFor("gc", "amd64").Alignof(f.typeOf(c.Args[0]))), true
	}
	if !ok || len(c.Args) != 2 {
		return "", false
	}
	var from ast.Expr
	switch a := ast.Unparen(c.Args[0]).(type) {
	case *ast.CallExpr:
		s, ok := ast.Unparen(a.Fun).(*ast.SelectorExpr)
		if ok && (s.Sel.Name == "SliceData" || s.Sel.Name == "StringData") && len(a.Args) == 1 {
			from = a.Args[0]
		}
	case *ast.UnaryExpr:
		if ix, ok := ast.Unparen(a.X).(*ast.IndexExpr); ok && a.Op == token.AND && isZero(p.Info.Types[ix.Index]) {
			from = ix.X
		}
	}
	if from == nil || isArray(f.typeOf(from)) || isPtr(f.typeOf(from)) {
		return "", false
	}
	switch {
	case b.Name() == "String" && p.texts:
		xs := f.ordered(func() string { return p.golf("OfSlice", f.expr(from)) }, func() string { return f.expr(c.Args[1]) })
		return p.golf("Part", xs[0], "0", xs[1]), true
	case b.Name() == "Slice" && p.isText(f.typeOf(from)):
		return p.golf("Copy", f.expr(from)), true
	}
	return "", false
}
