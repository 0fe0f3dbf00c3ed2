package tree

import (
	"go/ast"
	"go/token"
)

// DropUnreachable takes away the panics at the ends of functions that only satisfy the rule of the last statement, where
// the statement before them satisfies it already.
func (f *File) DropUnreachable() {
	for _, fd := range f.funcs() {
		list := fd.Body.List
		n := len(list)
		if fd.Type.Results == nil || n < 2 || !isUnreachable(list[n-1]) {
			continue
		}
		if terminates(list[n-2]) {
			fd.Body.List = list[:n-1]
		}
	}
}

// isUnreachable: the statement is panic("unreachable").
func isUnreachable(s ast.Stmt) bool {
	e, ok := s.(*ast.ExprStmt)
	if !ok {
		return false
	}
	c, ok := e.X.(*ast.CallExpr)
	if !ok || callee(c) != "panic" {
		return false
	}
	lit, ok := c.Args[0].(*ast.BasicLit)
	return ok && lit.Value == `"unreachable"`
}

// terminates: the statement is a terminating one, by the rules of the specification.
func terminates(s ast.Stmt) bool {
	last := func(list []ast.Stmt) bool { return len(list) > 0 && terminates(list[len(list)-1]) }
	switch s := s.(type) {
	case *ast.ReturnStmt:
		return true
	case *ast.ExprStmt:
		c, ok := s.X.(*ast.CallExpr)
		return ok && callee(c) == "panic"
	case *ast.BlockStmt:
		return last(s.List)
	case *ast.IfStmt:
		return s.Else != nil && terminates(s.Body) && terminates(s.Else)
	case *ast.ForStmt:
		return s.Cond == nil && !breaks(s.Body)
	case *ast.SelectStmt:
		for _, c := range s.Body.List {
			if !last(c.(*ast.CommClause).Body) {
				return false
			}
		}
		return !breaks(s.Body)
	}
	return false
}

// breaks: a break in the body leaves the statement around it.
func breaks(body *ast.BlockStmt) bool {
	found := false
	ast.Inspect(body, func(n ast.Node) bool {
		switch n := n.(type) {
		case *ast.ForStmt, *ast.RangeStmt, *ast.SelectStmt:
			return false
		case *ast.BranchStmt:
			found = found || n.Tok == token.BREAK
		}
		return !found
	})
	return found
}
