package tree

import (
	"go/ast"
	"go/token"
	"strings"
)

// The text of expressions and types.

// The ranks of operators, above those of the binary ones.
const (
	unaryRank   = 6
	primaryRank = 7
)

func list(es []ast.Expr) string {
	if len(es) == 1 {
		return expr(es[0])
	}
	texts := make([]string, len(es))
	for i, e := range es {
		texts[i] = expr(e)
	}
	return strings.Join(texts, ", ")
}

func expr(e ast.Expr) string {
	var w writer
	w.expr(e, 0)
	return w.String()
}

// header is an expression in the header of a statement, where no operand begins with & outside of brackets.
func header(e ast.Expr) string {
	w := writer{header: true}
	w.expr(e, 0)
	return w.String()
}

type writer struct {
	strings.Builder
	header bool
}

// expr writes an expression whose operator must have at least this rank.
func (w *writer) expr(e ast.Expr, rank int) {
	switch e := e.(type) {
	case *ast.ParenExpr:
		w.expr(e.X, rank)
	case *ast.Ident:
		w.WriteString(e.Name)
	case *ast.BasicLit:
		w.WriteString(e.Value)
	case *ast.BinaryExpr:
		w.binary(e, rank)
	case *ast.UnaryExpr:
		w.unary(e, rank)
	case *ast.StarExpr: // a type, or what a pointer points to
		write := func() {
			w.WriteByte('*')
			w.expr(e.X, unaryRank)
		}
		if rank > unaryRank {
			w.bracket(write)
		} else {
			write()
		}
	case *ast.SelectorExpr:
		w.expr(e.X, primaryRank)
		w.WriteByte('.')
		w.WriteString(e.Sel.Name)
	case *ast.IndexExpr:
		w.expr(e.X, primaryRank)
		w.inside("[", []ast.Expr{e.Index}, "]")
	case *ast.CallExpr:
		w.expr(e.Fun, primaryRank)
		w.inside("(", e.Args, ")")
	case *ast.CompositeLit:
		w.expr(e.Type, primaryRank)
		w.inside("{", e.Elts, "}")
	case *ast.KeyValueExpr:
		w.expr(e.Key, 0)
		w.WriteString(": ")
		w.expr(e.Value, 0)
	default:
		w.typ(e)
	}
}

// typ writes a type that is not a name.
func (w *writer) typ(e ast.Expr) {
	switch e := e.(type) {
	case *ast.ArrayType:
		w.WriteString("[]")
		w.expr(e.Elt, 0)
	case *ast.ChanType:
		switch e.Dir {
		case ast.SEND:
			w.WriteString("chan<- ")
		case ast.RECV:
			w.WriteString("<-chan ")
		default:
			w.WriteString("chan ")
		}
		w.expr(e.Value, 0)
	case *ast.StructType:
		w.WriteString("struct{}")
	default:
		w.WriteString("/* no expression of the subset */")
	}
}

// inside writes a list in brackets, where the rule of headers does not count.
func (w *writer) inside(open string, es []ast.Expr, end string) {
	old := w.header
	w.header = false
	w.WriteString(open)
	for i, e := range es {
		if i > 0 {
			w.WriteString(", ")
		}
		w.expr(e, 0)
	}
	w.WriteString(end)
	w.header = old
}

func (w *writer) bracket(write func()) {
	old := w.header
	w.header = false
	w.WriteByte('(')
	write()
	w.WriteByte(')')
	w.header = old
}

func (w *writer) binary(e *ast.BinaryExpr, rank int) {
	own := e.Op.Precedence()
	write := func() {
		w.expr(e.X, own)
		w.WriteString(" " + e.Op.String() + " ")
		w.expr(e.Y, own+1)
	}
	if own < rank {
		w.bracket(write)
	} else {
		write()
	}
}

func (w *writer) unary(e *ast.UnaryExpr, rank int) {
	write := func() {
		w.WriteString(e.Op.String())
		if e.Op == token.SUB && signed(e.X) {
			w.bracket(func() { w.expr(e.X, 0) })
		} else {
			w.expr(e.X, unaryRank)
		}
	}
	if rank > unaryRank || w.header && e.Op == token.AND {
		w.bracket(write)
	} else {
		write()
	}
}

// signed: the text of the expression begins with a minus.
func signed(e ast.Expr) bool {
	u, ok := ast.Unparen(e).(*ast.UnaryExpr)
	return ok && u.Op == token.SUB
}
