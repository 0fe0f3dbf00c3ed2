// Package tree has the lowered file as a syntax tree. Each line of the lowered text stands for a place of the user's
// files; a node of the tree has the place of the line on which it begins. The passes change the tree, and the printer
// writes it line by line with the places.
package tree

import (
	"go/ast"
	"go/parser"
	"go/token"
	"strings"
)

// Line is a line of text with the place of the user's files that it stands for; no place is generated code.
type Line struct {
	Text string
	Pos  token.Pos
}

// File is the lowered file as a tree.
type File struct {
	Tree   *ast.File
	fset   *token.FileSet
	places []token.Pos // places[k-1] is the place of line k of the text that was parsed
}

// Parse makes the tree of a text.
func Parse(lines []Line) (*File, error) {
	f := &File{fset: token.NewFileSet(), places: make([]token.Pos, 0, len(lines))}
	var text strings.Builder
	for _, l := range lines {
		text.WriteString(l.Text)
		text.WriteByte('\n')
		f.places = append(f.places, l.Pos)
	}
	var err error
	f.Tree, err = parser.ParseFile(f.fset, "lowered", text.String(), parser.SkipObjectResolution)
	return f, err
}

// Place returns the place of the user's files that a position of the tree stands for.
func (f *File) Place(pos token.Pos) token.Pos {
	if !pos.IsValid() {
		return token.NoPos
	}
	return f.places[f.fset.Position(pos).Line-1]
}

// funcs returns the functions of the file by their names.
func (f *File) funcs() map[string]*ast.FuncDecl {
	all := map[string]*ast.FuncDecl{}
	for _, d := range f.Tree.Decls {
		if fd, ok := d.(*ast.FuncDecl); ok {
			all[fd.Name.Name] = fd
		}
	}
	return all
}

// addAfter puts new declarations behind another one.
func (f *File) addAfter(old ast.Decl, more ...ast.Decl) {
	for i, d := range f.Tree.Decls {
		if d == old {
			rest := append(more, f.Tree.Decls[i+1:]...)
			f.Tree.Decls = append(f.Tree.Decls[:i+1:i+1], rest...)
			return
		}
	}
}

// rewrite replaces each list of statements in a node by what change makes of it, an inner list before the one around it.
func rewrite(n ast.Node, change func([]ast.Stmt) []ast.Stmt) {
	ast.Inspect(n, func(m ast.Node) bool {
		switch m := m.(type) {
		case *ast.BlockStmt:
			for _, s := range m.List {
				rewrite(s, change)
			}
			m.List = change(m.List)
			return false
		case *ast.CommClause:
			for _, s := range m.Body {
				rewrite(s, change)
			}
			m.Body = change(m.Body)
			return false
		}
		return true
	})
}

// callee returns the name of the function that a call names, or "".
func callee(c *ast.CallExpr) string {
	if id, ok := ast.Unparen(c.Fun).(*ast.Ident); ok {
		return id.Name
	}
	return ""
}

// name returns an identifier at a position.
func name(pos token.Pos, s string) *ast.Ident { return &ast.Ident{NamePos: pos, Name: s} }

// call returns the statement that calls a function.
func call(pos token.Pos, f string, args ...ast.Expr) ast.Stmt {
	return &ast.ExprStmt{X: &ast.CallExpr{Fun: name(pos, f), Lparen: pos, Args: args, Rparen: pos}}
}

// paramNames returns the names of the parameters of a function, as arguments of a call.
func paramNames(pos token.Pos, list *ast.FieldList) []ast.Expr {
	var names []ast.Expr
	for _, p := range list.List {
		for _, n := range p.Names {
			names = append(names, name(pos, n.Name))
		}
	}
	return names
}
