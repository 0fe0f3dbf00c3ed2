package tree

import "go/ast"

// Late lets each goroutine that the user's files start go on later: go f(x) starts a function that calls wait and then f.
// Another schedule could do that too. fresh makes new names.
func (f *File) Late(wait string, fresh func(string) string) {
	all := f.funcs()
	made := map[string]string{}
	for _, d := range append([]ast.Decl(nil), f.Tree.Decls...) {
		ast.Inspect(d, func(n ast.Node) bool {
			g, ok := n.(*ast.GoStmt)
			if !ok || !f.Place(g.Pos()).IsValid() {
				return true
			}
			started := callee(g.Call)
			if all[started] == nil {
				return true
			}
			if made[started] == "" {
				made[started] = fresh(started + "_late")
				f.addAfter(all[started], lateFunc(all[started], made[started], wait))
			}
			g.Call.Fun = name(g.Call.Fun.Pos(), made[started])
			return true
		})
	}
}

// lateFunc is the function that waits before it calls another one.
func lateFunc(fd *ast.FuncDecl, late, wait string) *ast.FuncDecl {
	pos := fd.Pos()
	body := []ast.Stmt{call(pos, wait), call(pos, fd.Name.Name, paramNames(pos, fd.Type.Params)...)}
	return &ast.FuncDecl{
		Name: name(pos, late),
		Type: &ast.FuncType{Func: pos, Params: &ast.FieldList{List: fd.Type.Params.List}},
		Body: &ast.BlockStmt{Lbrace: pos, List: body, Rbrace: pos},
	}
}
