package shrink

import (
	"go/ast"
	"go/types"
	"slices"
)

// ofStatements adds the changes of a list of statements, and of a statement that has others in it.
func (p *parsed) ofStatements(n ast.Node, add func(change)) {
	switch n := n.(type) {
	case *ast.BlockStmt:
		p.ofList(n.List, add)
	case *ast.CaseClause:
		p.ofList(n.Body, add)
	case *ast.CommClause:
		p.ofList(n.Body, add)
	case *ast.IfStmt:
		add(change{p.cut(n, p.source(n.Body))})
		if n.Else != nil {
			add(change{p.cut(n, p.source(n.Else))})
			_, from := p.span(n.Body)
			_, to := p.span(n)
			add(change{{from, to, ""}})
		}
	case *ast.ForStmt:
		add(change{p.cut(n, p.source(n.Body))})
	case *ast.RangeStmt:
		add(change{p.cut(n, p.source(n.Body))})
	case *ast.LabeledStmt:
		add(change{p.cut(n, p.source(n.Stmt))})
	case *ast.ExprStmt:
		if body := literalIn(n.X); body != nil {
			add(change{p.cut(n, p.source(body))})
		}
	}
}

// literalIn is the body of the function literal that a call calls, or gives to what it calls.
func literalIn(e ast.Expr) *ast.BlockStmt {
	c, ok := e.(*ast.CallExpr)
	if !ok {
		return nil
	}
	for _, x := range append([]ast.Expr{c.Fun}, c.Args...) {
		if lit, ok := x.(*ast.FuncLit); ok {
			return lit.Body
		}
	}
	return nil
}

// ofList adds the changes that take neighbours out of a list: all, halves of it, and so on.
func (p *parsed) ofList(list []ast.Stmt, add func(change)) {
	for size := len(list); size > 0; size /= 2 {
		for i := 0; i+size <= len(list); i += size {
			from, _ := p.span(list[i])
			_, to := p.span(list[i+size-1])
			add(change{{from, to, ""}})
		}
	}
}

// least is the length of an expression that is made smaller.
const least = 10

// ofExpression adds the changes that put a part of an expression, or a constant, in its place.
func (p *parsed) ofExpression(e ast.Expr, add func(change)) {
	if list := elements(e); len(list) > 1 {
		for i, x := range list {
			from, to := p.span(x)
			if i+1 < len(list) {
				to, _ = p.span(list[i+1])
			} else {
				_, from = p.span(list[i-1])
			}
			add(change{{from, to, ""}})
		}
	}
	t := p.info.Types[e]
	if from, to := p.span(e); !t.IsValue() || to-from < least {
		return
	}
	ast.Inspect(e, func(n ast.Node) bool {
		x, ok := n.(ast.Expr)
		if ok && x != e && p.info.Types[x].IsValue() && types.Identical(p.info.Types[x].Type, t.Type) {
			add(change{p.cut(e, p.source(x))})
			return false
		}
		return true
	})
	if zero := constantOf(t.Type); zero != "" {
		add(change{p.cut(e, zero)})
	}
}

// elements are the elements of a literal, or the operands of a call.
func elements(e ast.Expr) []ast.Expr {
	switch e := e.(type) {
	case *ast.CompositeLit:
		return e.Elts
	case *ast.CallExpr:
		return e.Args
	}
	return nil
}

// constantOf is a constant of a basic type, "" for other types.
func constantOf(t types.Type) string {
	b, ok := t.(*types.Basic)
	if !ok {
		return ""
	}
	switch info := b.Info(); {
	case info&types.IsBoolean != 0:
		return "true"
	case info&types.IsString != 0:
		return `"s"`
	case b.Kind() == types.Int:
		return "1"
	case info&types.IsNumeric != 0 && info&types.IsUntyped == 0:
		return b.Name() + "(1)"
	}
	return ""
}

// ofVariables adds for each name the change that takes away all statements and declarations that name it.
func (p *parsed) ofVariables(add func(change)) {
	uses := map[types.Object][]*ast.Ident{}
	for id, o := range p.info.Uses {
		uses[o] = append(uses[o], id)
	}
	var objects []types.Object
	for id, o := range p.info.Defs {
		if o != nil && id.Name != "_" {
			objects = append(objects, o)
			uses[o] = append(uses[o], id)
		}
	}
	slices.SortFunc(objects, func(a, b types.Object) int { return int(a.Pos() - b.Pos()) })
	for _, o := range objects {
		var c change
		for _, id := range uses[o] {
			if s := p.smallest(id); s != nil {
				c = append(c, p.cut(s, ""))
			}
		}
		add(c)
	}
}

// smallest is the smallest statement, declaration or field around a name.
func (p *parsed) smallest(id *ast.Ident) ast.Node {
	var found ast.Node
	ast.Inspect(p.file, func(n ast.Node) bool {
		if n == nil || id.Pos() < n.Pos() || id.Pos() >= n.End() {
			return false
		}
		switch n.(type) {
		case *ast.BlockStmt, *ast.CaseClause, *ast.CommClause:
		case ast.Stmt, ast.Decl:
			found = n
		}
		return true
	})
	return found
}
