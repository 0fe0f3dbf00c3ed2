package tree

import (
	"go/ast"
	"go/token"
)

// mostChain is how many nodes of conditions a chain of else if may have with no semicolon between them: golf refuses a token
// that costs over 1,000, and nested chains cost what they have together.
const mostChain = 100

// Chains makes long chains of else if such that golf takes them: an else if begins, now and then, with a statement that
// changes nothing, since what is before a semicolon costs nothing. fresh makes new names.
func (f *File) Chains(fresh func(string) string) {
	for _, d := range f.Tree.Decls {
		fd, ok := d.(*ast.FuncDecl)
		if !ok {
			continue
		}
		rewrite(fd.Body, func(list []ast.Stmt) []ast.Stmt {
			var all []ast.Stmt
			for _, s := range list {
				if chain, ok := s.(*ast.IfStmt); ok {
					if late := lateLinks(chain); len(late) > 0 {
						all = append(all, part(late, fresh("chain")))
					}
				}
				all = append(all, s)
			}
			return all
		})
	}
}

// lateLinks are the links of a chain before which a semicolon must come.
func lateLinks(chain *ast.IfStmt) []*ast.IfStmt {
	var late []*ast.IfStmt
	sum := 0
	for link := chain; link != nil; link, _ = link.Else.(*ast.IfStmt) {
		n := 2 + nodes(link.Cond)
		if sum > 0 && sum+n > mostChain {
			late = append(late, link)
			sum = 0
		}
		sum += n
	}
	return late
}

// nodes is the number of nodes of an expression.
func nodes(e ast.Expr) int {
	n := 0
	ast.Inspect(e, func(m ast.Node) bool {
		if m != nil {
			n++
		}
		return true
	})
	return n
}

// part lets these links begin with a statement, and returns the one that declares its variable.
func part(links []*ast.IfStmt, v string) ast.Stmt {
	for _, link := range links {
		pos := link.Pos()
		link.Init = assign(pos, name(pos, v), token.ASSIGN, name(pos, v))
	}
	pos := links[0].Pos()
	return assign(pos, name(pos, v), token.DEFINE, &ast.BasicLit{ValuePos: pos, Kind: token.INT, Value: "0"})
}
