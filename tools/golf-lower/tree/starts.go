package tree

import "go/ast"

// Starts says whether the file starts a goroutine by another function than this one.
func (f *File) Starts(other string) bool {
	found := false
	ast.Inspect(f.Tree, func(n ast.Node) bool {
		if g, ok := n.(*ast.GoStmt); ok {
			found = found || callee(g.Call) != other
		}
		return !found
	})
	return found
}
