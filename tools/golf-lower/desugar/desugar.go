// Package desugar replaces statements of a checked package by simpler ones, before it is analysed and lowered. A range over
// a function becomes a call of it. In packages of Go 1.21 and older, a loop has its variables once: they are declared before
// it. New nodes have the types and the objects that the type checker would give them.
package desugar

import (
	"go/ast"
	"go/constant"
	"go/token"
	"go/types"

	"golflower/load"
)

// Package changes the files of a package. A declaration that cannot be changed is faulty.
func Package(l *load.Loader, k *load.Pkg) {
	if k.Desugared {
		return
	}
	k.Desugared = true
	for _, f := range k.Files {
		for _, d := range f.Decls {
			declaration(l, k, d, l.OldLoops(f))
		}
	}
}

func declaration(l *load.Loader, k *load.Pkg, d ast.Decl, old bool) {
	defer func() {
		switch e := recover().(type) {
		case nil:
		case *load.Error:
			if l.Faulty[d] == nil {
				l.Faulty[d] = e
			}
		default:
			panic(e)
		}
	}()
	s := &desugarer{loader: l, info: l.Info, pkg: k.Types, old: old}
	if fd, ok := d.(*ast.FuncDecl); ok {
		if fn, ok := l.Info.Defs[fd.Name].(*types.Func); ok && fd.Body != nil {
			s.body(fn.Signature(), fd.Body)
		}
		return
	}
	s.literals(d)
}

// desugarer changes one declaration.
type desugarer struct {
	loader *load.Loader
	info   *types.Info
	pkg    *types.Package
	sig    *types.Signature // of the function around
	old    bool             // a loop has its variables once
}

func (d *desugarer) refuse(pos token.Pos, what string) {
	panic(&load.Error{Pos: d.loader.Fset.Position(pos), Msg: what + ": not supported"})
}

func (d *desugarer) body(sig *types.Signature, b *ast.BlockStmt) {
	old := d.sig
	d.sig = sig
	d.list(b.List)
	d.sig = old
}

func (d *desugarer) list(list []ast.Stmt) {
	for i, s := range list {
		list[i] = d.stmt(s, nil)
	}
}

// literals changes the bodies of the function literals in a node.
func (d *desugarer) literals(n ast.Node) {
	ast.Inspect(n, func(m ast.Node) bool {
		lit, ok := m.(*ast.FuncLit)
		if !ok {
			return true
		}
		if sig, ok := d.info.TypeOf(lit).(*types.Signature); ok {
			d.body(sig, lit.Body)
		}
		return false
	})
}

// parts changes those parts of a statement that are there, which have no statements of their own but in literals.
func (d *desugarer) parts(ss ast.Stmt, es ...ast.Expr) {
	if ss != nil {
		d.literals(ss)
	}
	for _, e := range es {
		if e != nil {
			d.literals(e)
		}
	}
}

// stmt returns what a statement becomes; label is its label.
func (d *desugarer) stmt(s ast.Stmt, label *ast.Ident) ast.Stmt {
	switch s := s.(type) {
	case *ast.BlockStmt:
		d.list(s.List)
	case *ast.IfStmt:
		d.parts(s.Init, s.Cond)
		d.list(s.Body.List)
		if s.Else != nil {
			s.Else = d.stmt(s.Else, nil)
		}
	case *ast.ForStmt:
		d.parts(s.Init, s.Cond)
		d.parts(s.Post)
		d.list(s.Body.List)
		if d.old && shares(s) {
			return d.oldFor(s, label)
		}
	case *ast.RangeStmt:
		return d.rangeStmt(s, label)
	case *ast.SwitchStmt:
		d.parts(s.Init, s.Tag)
		d.clauses(s.Body)
	case *ast.TypeSwitchStmt:
		d.parts(s.Init)
		d.parts(s.Assign)
		d.clauses(s.Body)
	case *ast.SelectStmt:
		d.clauses(s.Body)
	case *ast.LabeledStmt:
		s.Stmt = d.stmt(s.Stmt, s.Label)
		if b, ok := s.Stmt.(*ast.BlockStmt); ok && b.Lbrace == token.NoPos {
			return b // the label is in it, or was that of a loop which is none any more
		}
	default:
		d.literals(s)
	}
	return s
}

func (d *desugarer) clauses(b *ast.BlockStmt) {
	for _, c := range b.List {
		switch c := c.(type) {
		case *ast.CaseClause:
			d.parts(nil, c.List...)
			d.list(c.Body)
		case *ast.CommClause:
			d.parts(c.Comm)
			d.list(c.Body)
		}
	}
}

func (d *desugarer) rangeStmt(s *ast.RangeStmt, label *ast.Ident) ast.Stmt {
	d.parts(nil, s.Key, s.Value, s.X)
	d.list(s.Body.List)
	if t := d.info.TypeOf(s.X); t != nil {
		if yield, ok := yieldOf(t); ok {
			return d.loop(s, label, yield)
		}
	}
	if d.old && s.Tok == token.DEFINE && shares(s) {
		return d.oldRange(s, label)
	}
	return s
}

// The parts of new statements.

func (d *desugarer) variable(name string, t types.Type, pos token.Pos) *types.Var {
	return types.NewVar(pos, d.pkg, name, t)
}

func (d *desugarer) use(v *types.Var, pos token.Pos) *ast.Ident {
	id := &ast.Ident{NamePos: pos, Name: v.Name()}
	d.info.Uses[id] = v
	return id
}

func (d *desugarer) def(v *types.Var, pos token.Pos) *ast.Ident {
	id := &ast.Ident{NamePos: pos, Name: v.Name()}
	d.info.Defs[id] = v
	return id
}

func (d *desugarer) constant(v constant.Value, t types.Type, pos token.Pos) ast.Expr {
	e := &ast.BasicLit{ValuePos: pos, Kind: token.INT, Value: v.ExactString()}
	d.info.Types[e] = types.TypeAndValue{Type: t, Value: v}
	return e
}

// declare is var v T.
func (d *desugarer) declare(v *types.Var, pos token.Pos) ast.Stmt {
	return declaring(d.def(v, pos))
}

// declaring is the declaration of a variable whose identifier is known.
func declaring(id *ast.Ident) ast.Stmt {
	spec := &ast.ValueSpec{Names: []*ast.Ident{id}}
	return &ast.DeclStmt{Decl: &ast.GenDecl{TokPos: id.NamePos, Tok: token.VAR, Specs: []ast.Spec{spec}}}
}

func (d *desugarer) assign(v *types.Var, x ast.Expr, pos token.Pos) ast.Stmt {
	return &ast.AssignStmt{Lhs: []ast.Expr{d.use(v, pos)}, TokPos: pos, Tok: token.ASSIGN, Rhs: []ast.Expr{x}}
}

func (d *desugarer) integer(n int, pos token.Pos) ast.Expr {
	return d.constant(constant.MakeInt64(int64(n)), types.Typ[types.Int], pos)
}

// truth is return true, or return false.
func (d *desugarer) truth(b bool, pos token.Pos) ast.Stmt {
	return &ast.ReturnStmt{Return: pos, Results: []ast.Expr{d.constant(constant.MakeBool(b), types.Typ[types.Bool], pos)}}
}

func isBlank(e ast.Expr) bool {
	id, ok := e.(*ast.Ident)
	return ok && id.Name == "_"
}
