package lower

import (
	"fmt"
	"go/ast"
	"go/token"

	"golflower/load"
)

// places finds the file, the line and the function of a place in the user's files.
type places struct {
	fset  *token.FileSet
	funcs []funcRange // an outer function before those in it
}

type funcRange struct {
	pos, end token.Pos
	name     string
}

func (p *prog) newPlaces() *places {
	pl := &places{fset: p.Fset}
	for _, k := range p.List {
		if !k.User {
			continue
		}
		prefix := ""
		if k != p.user {
			prefix = k.Types.Name() + "."
		}
		for _, f := range k.Files {
			for _, d := range f.Decls {
				fd, ok := d.(*ast.FuncDecl)
				name := prefix + "glob."
				if ok {
					name = prefix + declName(fd)
					pl.funcs = append(pl.funcs, funcRange{fd.Pos(), fd.End(), name})
				}
				pl.literals(d, name, !ok)
			}
		}
	}
	return pl
}

// declName is the name of a function or method, as Go's stacks have it.
func declName(fd *ast.FuncDecl) string {
	if fd.Recv == nil || len(fd.Recv.List) == 0 {
		return fd.Name.Name
	}
	star := false
	t := fd.Recv.List[0].Type
	for {
		switch x := t.(type) {
		case *ast.ParenExpr:
			t = x.X
			continue
		case *ast.StarExpr:
			star = true
			t = x.X
			continue
		case *ast.IndexExpr:
			t = x.X
			continue
		case *ast.IndexListExpr:
			t = x.X
			continue
		case *ast.Ident:
			if star {
				return "(*" + x.Name + ")." + fd.Name.Name
			}
			return x.Name + "." + fd.Name.Name
		}
		return fd.Name.Name
	}
}

// literals names the function literals in a node: F.func1, F.func2, and F.func1.1 inside the first.
func (pl *places) literals(n ast.Node, outer string, global bool) {
	count := 0
	ast.Inspect(n, func(m ast.Node) bool {
		lit, ok := m.(*ast.FuncLit)
		if !ok || m == n {
			return true
		}
		count++
		name := fmt.Sprintf("%s.func%d", outer, count)
		if _, inner := n.(*ast.FuncLit); inner {
			name = fmt.Sprintf("%s.%d", outer, count)
		}
		pl.funcs = append(pl.funcs, funcRange{lit.Pos(), lit.End(), name})
		pl.literals(lit, name, global)
		return false
	})
}

// of is the place of a position; a position of _std or of generated code has none.
func (pl *places) of(pos token.Pos) Place {
	if !pos.IsValid() {
		return Place{}
	}
	q := pl.fset.Position(pos)
	if load.IsStandard(q.Filename) {
		return Place{}
	}
	r := Place{File: q.Filename, Line: q.Line, Column: q.Column}
	for _, f := range pl.funcs {
		if f.pos <= pos && pos < f.end {
			r.Func = f.name
		}
	}
	return r
}

// orig is a place in the user's files, or none in _std.
func (p *prog) orig(pos token.Pos) token.Pos {
	if !pos.IsValid() || load.IsStandard(p.Fset.Position(pos).Filename) {
		return token.NoPos
	}
	return pos
}
