package tree

import (
	"go/ast"
	"go/token"
)

// DropUnused takes away the variables that nobody reads, so that the file is Go too. What their values do is kept.
func (f *File) DropUnused() {
	for _, fd := range f.funcs() {
		u := &unused{count: map[string]int{}}
		ast.Inspect(fd.Body, u.countNames)
		rewrite(fd.Body, u.list)
	}
}

// unused counts how often the names of a function occur in it: a variable whose name occurs once is not read.
type unused struct{ count map[string]int }

func (u *unused) countNames(n ast.Node) bool {
	switch n := n.(type) {
	case *ast.Ident:
		u.count[n.Name]++
	case *ast.SelectorExpr:
		ast.Inspect(n.X, u.countNames)
		return false
	case *ast.KeyValueExpr:
		ast.Inspect(n.Value, u.countNames)
		return false
	}
	return true
}

// lone: the expression is a name that occurs nowhere else.
func (u *unused) lone(e ast.Expr) bool {
	id, ok := e.(*ast.Ident)
	return ok && id.Name != "_" && u.count[id.Name] == 1
}

func (u *unused) list(list []ast.Stmt) []ast.Stmt {
	kept := list[:0]
	for _, s := range list {
		if s = u.stmt(s); s != nil {
			kept = append(kept, s)
		}
	}
	return kept
}

// stmt returns the statement without what nobody reads, nil for nothing.
func (u *unused) stmt(s ast.Stmt) ast.Stmt {
	switch s := s.(type) {
	case *ast.AssignStmt:
		if s.Tok != token.DEFINE {
			break
		}
		if len(s.Lhs) == 2 {
			return u.pair(s)
		}
		if u.lone(s.Lhs[0]) {
			return discard(s.Pos(), s.Rhs[0])
		}
	case *ast.DeclStmt:
		spec := s.Decl.(*ast.GenDecl).Specs[0].(*ast.ValueSpec)
		if !u.lone(spec.Names[0]) {
			break
		}
		if len(spec.Values) == 0 {
			return nil
		}
		return discard(s.Pos(), spec.Values[0])
	case *ast.SelectStmt:
		for _, c := range s.Body.List {
			u.comm(c.(*ast.CommClause))
		}
	}
	return s
}

// pair is v, ok := <-c.
func (u *unused) pair(s *ast.AssignStmt) ast.Stmt {
	blanks := 0
	for i, l := range s.Lhs {
		if u.lone(l) {
			s.Lhs[i] = name(l.Pos(), "_")
		}
		if s.Lhs[i].(*ast.Ident).Name == "_" {
			blanks++
		}
	}
	if blanks == 2 {
		return &ast.ExprStmt{X: s.Rhs[0]}
	}
	return s
}

// comm drops the names that a clause gives to what it receives.
func (u *unused) comm(c *ast.CommClause) {
	s, ok := c.Comm.(*ast.AssignStmt)
	if !ok || s.Tok != token.DEFINE {
		return
	}
	if len(s.Lhs) == 2 {
		c.Comm = u.pair(s)
	} else if u.lone(s.Lhs[0]) {
		c.Comm = &ast.ExprStmt{X: s.Rhs[0]}
	}
}

// discard evaluates a value that nobody reads; nil if that does nothing.
func discard(pos token.Pos, x ast.Expr) ast.Stmt {
	if isLiteral(x) {
		return nil
	}
	return &ast.AssignStmt{Lhs: []ast.Expr{name(pos, "_")}, TokPos: pos, Tok: token.ASSIGN, Rhs: []ast.Expr{x}}
}

// isLiteral: the expression is a constant, nil or struct{}{}.
func isLiteral(x ast.Expr) bool {
	switch x := x.(type) {
	case *ast.ParenExpr:
		return isLiteral(x.X)
	case *ast.BasicLit:
		return true
	case *ast.UnaryExpr:
		_, lit := x.X.(*ast.BasicLit)
		return lit && x.Op == token.SUB
	case *ast.CompositeLit:
		_, empty := x.Type.(*ast.StructType)
		return empty
	case *ast.Ident:
		return x.Name == "nil" || x.Name == "true" || x.Name == "false"
	}
	return false
}
