package tree

import (
	"go/ast"
	"go/token"
)

// The names of the group that counts the goroutines which do not wait, and of what belongs to it.
const busyName = "golf_busy"

// Count counts each goroutine that is started as one that does not wait, until its function returns: go f(x) adds one and
// starts a function that calls f and takes it away. The goroutine of the function clock is not counted. main is.
func (f *File) Count(clock string) {
	all := f.funcs()
	made := map[string]bool{}
	change := func(list []ast.Stmt) []ast.Stmt {
		var kept []ast.Stmt
		for _, s := range list {
			g, ok := s.(*ast.GoStmt)
			if !ok || callee(g.Call) == clock || all[callee(g.Call)] == nil {
				kept = append(kept, s)
				continue
			}
			started := all[callee(g.Call)]
			wrapper := "golf_run_" + started.Name.Name
			if !made[wrapper] {
				made[wrapper] = true
				f.addAfter(started, counted(started, wrapper))
			}
			g.Call.Fun = name(g.Call.Fun.Pos(), wrapper)
			kept = append(kept, busy(g.Pos(), "Add", &ast.BasicLit{ValuePos: g.Pos(), Kind: token.INT, Value: "1"}), g)
		}
		return kept
	}
	for _, fd := range all {
		rewrite(fd.Body, change)
	}
	m := all["main"]
	pos := m.Body.Lbrace
	m.Body.List = append([]ast.Stmt{busy(pos, "Add", &ast.BasicLit{ValuePos: pos, Kind: token.INT, Value: "1"})}, m.Body.List...)
}

// busy calls a method of the group.
func busy(pos token.Pos, method string, args ...ast.Expr) ast.Stmt {
	sel := &ast.SelectorExpr{X: name(pos, busyName), Sel: name(pos, method)}
	return &ast.ExprStmt{X: &ast.CallExpr{Fun: sel, Lparen: pos, Args: args, Rparen: pos}}
}

// counted is the function of a goroutine that is counted.
func counted(fd *ast.FuncDecl, wrapper string) *ast.FuncDecl {
	pos := fd.Pos()
	list := []ast.Stmt{call(pos, fd.Name.Name, paramNames(pos, fd.Type.Params)...), busy(pos, "Done")}
	return &ast.FuncDecl{
		Name: name(pos, wrapper),
		Type: &ast.FuncType{Func: pos, Params: &ast.FieldList{List: fd.Type.Params.List}},
		Body: &ast.BlockStmt{Lbrace: pos, List: list, Rbrace: pos},
	}
}
