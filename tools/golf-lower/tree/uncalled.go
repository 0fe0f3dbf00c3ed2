package tree

import (
	"go/ast"
	"go/token"
	"slices"
	"strconv"
)

// DropUncalled takes away the functions and types whose names nothing mentions that main or a global variable leads to, and then
// the imports that nothing needs. golf reads a smaller file in less time, and reads it for each run.
func (f *File) DropUncalled() {
	mentioned := f.mentioned()
	packages := map[string]bool{}
	f.Tree.Decls = slices.DeleteFunc(f.Tree.Decls, func(d ast.Decl) bool {
		name, drops := declared(d)
		if drops && !mentioned[name] {
			return true
		}
		ast.Inspect(d, func(n ast.Node) bool {
			if s, ok := n.(*ast.SelectorExpr); ok {
				if id, ok := s.X.(*ast.Ident); ok {
					packages[id.Name] = true
				}
			}
			return true
		})
		return false
	})
	f.Tree.Decls = slices.DeleteFunc(f.Tree.Decls, func(d ast.Decl) bool {
		g, ok := d.(*ast.GenDecl)
		if !ok || g.Tok != token.IMPORT {
			return false
		}
		path, err := strconv.Unquote(g.Specs[0].(*ast.ImportSpec).Path.Value)
		return err == nil && !packages[path]
	})
}

// mentioned has the names that main and the global variables lead to.
func (f *File) mentioned() map[string]bool {
	bodies := map[string]ast.Node{}
	seen := map[string]bool{}
	var work []ast.Node
	for _, d := range f.Tree.Decls {
		switch name, drops := declared(d); {
		case drops:
			bodies[name] = d
		default:
			work = append(work, d)
		}
	}
	for len(work) > 0 {
		n := work[len(work)-1]
		work = work[:len(work)-1]
		ast.Inspect(n, func(n ast.Node) bool {
			if id, ok := n.(*ast.Ident); ok && !seen[id.Name] {
				seen[id.Name] = true
				if b := bodies[id.Name]; b != nil {
					work = append(work, b)
				}
			}
			return true
		})
	}
	return seen
}

// declared is the name of a function or a type. Neither main nor another declaration is dropped.
func declared(d ast.Decl) (name string, drops bool) {
	switch d := d.(type) {
	case *ast.FuncDecl:
		return d.Name.Name, d.Name.Name != "main"
	case *ast.GenDecl:
		if d.Tok == token.TYPE {
			return d.Specs[0].(*ast.TypeSpec).Name.Name, true
		}
	}
	return "", false
}
