package lower

import (
	"go/ast"
	"go/token"
	"go/types"
	"strings"

	"golflower/tree"
)

// pause lets a goroutine wait before a statement: now and then if it can block, and, where the schedule chooses so, if others
// can see what it does.
func (f *fctx) pause(s ast.Stmt) {
	p := f.p
	if !p.opt.Pause && !p.opt.Hold || !f.user() {
		return
	}
	blocks, shows := f.communicates(s)
	if blocks && p.opt.Pause {
		f.emit("%s()", p.stdFunc("time", "Pause"))
	}
	if (blocks || shows) && p.opt.Hold {
		f.emit("%s()", p.stall())
	}
}

// communicates says whether a statement can block or wakes others, and whether it does what others can see in another way: by
// package sync/atomic, by the end of a context, or by a range over a channel.
func (f *fctx) communicates(s ast.Stmt) (blocks, shows bool) {
	p := f.p
	if r, ok := s.(*ast.RangeStmt); ok {
		if t := f.typeOf(r.X); t != nil {
			_, shows = under(t).(*types.Chan)
		}
	}
	ast.Inspect(s, func(n ast.Node) bool {
		switch n := n.(type) {
		case *ast.FuncLit, *ast.BlockStmt, *ast.GoStmt, *ast.DeferStmt:
			return false
		case *ast.SendStmt, *ast.SelectStmt:
			blocks = true
		case *ast.UnaryExpr:
			blocks = blocks || n.Op == token.ARROW
		case *ast.CallExpr:
			name := p.calleeName(n)
			blocks = blocks || strings.HasPrefix(name, "(*sync.") || strings.HasPrefix(name, "(sync.") || p.isBuiltin(n) == "close"
			shows = shows || strings.HasPrefix(name, "sync/atomic.") || strings.HasPrefix(name, "(*sync/atomic.") || f.isCancel(n)
		}
		return !blocks
	})
	return blocks, shows
}

// isCancel: the call is one of a function that ends a context.
func (f *fctx) isCancel(c *ast.CallExpr) bool {
	n, ok := types.Unalias(f.typeOf(c.Fun)).(*types.Named)
	return ok && n.Obj().Pkg() != nil && n.Obj().Pkg().Path() == "context" && strings.HasPrefix(n.Obj().Name(), "Cancel")
}

// stall is the function that keeps a goroutine where the schedule chooses so.
func (p *prog) stall() string {
	if p.clock {
		return p.stdFunc("time", "stall")
	}
	return p.stdFunc("golf", "Stall")
}

// resume is the function that lets all go on.
func (p *prog) resume() string {
	if p.clock {
		return p.stdFunc("time", "resume")
	}
	return p.stdFunc("golf", "Resume")
}

// withoutStalls are the lines without the calls of these functions.
func (p *prog) withoutStalls(lines []tree.Line) []tree.Line {
	stall, resume := p.stall()+"()", p.resume()+"()"
	var kept []tree.Line
	for _, l := range lines {
		if l.Text != stall && l.Text != resume {
			kept = append(kept, l)
		}
	}
	return kept
}
