package desugar

import (
	"go/ast"
	"go/token"
	"go/types"
)

// Before Go 1.22 all rounds of a loop share its variables. That matters if a function literal or an address is in it.

// shares: the loop has a function literal or takes an address.
func shares(loop ast.Stmt) bool {
	found := false
	ast.Inspect(loop, func(n ast.Node) bool {
		switch n := n.(type) {
		case *ast.FuncLit:
			found = true
		case *ast.UnaryExpr:
			found = found || n.Op == token.AND
		case *ast.SelectorExpr:
			found = true // maybe a method with a pointer receiver, as a value
		}
		return !found
	})
	return found
}

// before puts statements before a loop, which keeps its label.
func before(loop ast.Stmt, label *ast.Ident, end token.Pos, first ...ast.Stmt) ast.Stmt {
	if label != nil {
		loop = &ast.LabeledStmt{Label: label, Colon: label.End(), Stmt: loop}
	}
	return &ast.BlockStmt{List: append(first, loop), Rbrace: end}
}

// oldFor declares the variables of a header before the loop.
func (d *desugarer) oldFor(s *ast.ForStmt, label *ast.Ident) ast.Stmt {
	init, ok := s.Init.(*ast.AssignStmt)
	if !ok || init.Tok != token.DEFINE {
		return s
	}
	s.Init = nil
	return before(s, label, s.Body.Rbrace, init)
}

// oldRange declares the variables of a range before the loop, which assigns to them.
func (d *desugarer) oldRange(s *ast.RangeStmt, label *ast.Ident) ast.Stmt {
	var first []ast.Stmt
	assigned := func(e ast.Expr) ast.Expr {
		id, ok := e.(*ast.Ident)
		if !ok || id.Name == "_" {
			return e
		}
		v, ok := d.info.Defs[id].(*types.Var)
		if !ok {
			return e
		}
		first = append(first, declaring(id))
		return d.use(v, id.NamePos)
	}
	s.Key, s.Value = assigned(s.Key), assigned(s.Value)
	s.Tok = token.ASSIGN
	return before(s, label, s.Body.Rbrace, first...)
}
