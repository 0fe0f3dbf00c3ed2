package lower

import (
	"fmt"
	"go/ast"
	"go/constant"
	"go/types"
	"path/filepath"
	"slices"
	"strings"

	"golflower/load"
)

// isTest: the declaration is a test function of the user's files.
func (p *prog) isTest(fd *ast.FuncDecl) bool {
	return load.IsTestName(fd.Name.Name) && p.takes(fd, "*testing.T")
}

// takes: the declaration is a function with one parameter, of this type of package testing.
func (p *prog) takes(fd *ast.FuncDecl, key string) bool {
	fn, ok := p.Info.Defs[fd.Name].(*types.Func)
	return ok && fd.Recv == nil && fn.Signature().Params().Len() == 1 && typeKey(fn.Signature().Params().At(0).Type()) == key
}

// testMain is a main that calls the tests in their order, or the files' TestMain, which does so by M.Run.
func (p *prog) testMain() *buffer {
	tests, around := p.testFuncs()
	if len(tests) == 0 {
		panic(&load.Error{Pos: p.Fset.Position(p.user.Files[0].Pos()), Msg: "no test function"})
	}
	b := &buffer{}
	b.add(0, "func main() {")
	call := "top"
	if around != nil {
		call = "plan"
	}
	for _, fd := range tests {
		p.faulty(fd)
		fn := p.Info.Defs[fd.Name].(*types.Func)
		p.pos = fd.Pos()
		f := p.newFctx("main")
		b.add(p.orig(fd.Pos()), "%s(%s, %s)", p.stdFunc("testing", call), p.textConst(fd.Name.Name), f.funcValue(fn, nil, fn.Signature()))
	}
	if around == nil {
		b.add(0, "%s()", p.stdFunc("testing", "end"))
	} else {
		p.callTestMain(b, around)
	}
	b.add(0, "}")
	return b
}

// testFuncs are the tests that are called, in their order, and TestMain, or nil.
func (p *prog) testFuncs() (tests []*ast.FuncDecl, around *ast.FuncDecl) {
	for _, k := range p.Roots {
		for _, file := range k.Files {
			for _, d := range file.Decls {
				fd, ok := d.(*ast.FuncDecl)
				switch {
				case !ok:
				case fd.Name.Name == "TestMain" && p.takes(fd, "*testing.M"):
					around = fd
				case p.isTest(fd) && (p.opt.Only == "" || fd.Name.Name == p.opt.Only):
					tests = append(tests, fd)
				}
			}
		}
	}
	return tests, around
}

// callTestMain calls TestMain. The program ends with the status of M.Run when it returns.
func (p *prog) callTestMain(b *buffer, fd *ast.FuncDecl) {
	p.faulty(fd)
	p.pos = fd.Pos()
	at := p.orig(fd.Pos())
	b.add(at, "golf_m := %s()", p.stdFunc("testing", "newM"))
	b.add(at, "%s(golf_m)", p.funcRef(p.Info.Defs[fd.Name].(*types.Func), nil))
	if p.unwind {
		b.add(at, "if golf_raised() {")
		b.add(at, "return")
		b.add(at, "}")
	}
	b.add(at, "%s(golf_m)", p.stdFunc("testing", "leave"))
}

// testCall is a statement that calls a method of testing.T which tells something or stops; false if it is another call.
func (f *fctx) testCall(c *ast.CallExpr, fn *types.Func) bool {
	switch fn.FullName() {
	case "testing.write":
		f.writes(f.pieceOf(c.Args[0]))
		return true
	case "testing.head":
		name := f.pieceOf(c.Args[1])
		if f.p.opt.Only != "" {
			name = piece{lit: f.p.opt.Only, isLit: true}
		}
		f.writes(piece{lit: "--- ", isLit: true}, f.pieceOf(c.Args[0]), piece{lit: ": ", isLit: true}, name, piece{lit: "\n", isLit: true})
		return true
	}
	name, ofT := strings.CutPrefix(fn.FullName(), "(*testing.T).")
	name, ofTB := strings.CutPrefix(name, "(testing.TB).")
	kind := strings.TrimSuffix(strings.TrimSuffix(name, "f"), "Now")
	if !ofT && !ofTB || name == "Fail" || !slices.Contains(tellers, kind) {
		return false
	}
	sel, ok := generic(c.Fun).(*ast.SelectorExpr)
	if !ok || f.p.selectionOf(sel).kind != types.MethodVal {
		return false
	}
	t := f.testOf(sel, ofTB)
	if !strings.HasSuffix(name, "Now") {
		f.testLog(c, t, strings.HasSuffix(name, "f"))
	}
	switch kind {
	case "Error":
		f.emit("%s(%s)", f.p.stdFunc("testing", "fail"), t)
	case "Fatal", "Fail", "Skip":
		f.testEnd(sel.X, t, kind == "Skip")
	}
	return true
}

// pieceOf is a string as a piece of what is printed.
func (f *fctx) pieceOf(e ast.Expr) piece {
	if v := f.p.Info.Types[e].Value; v != nil {
		return piece{lit: constant.StringVal(v), isLit: true}
	}
	return piece{text: f.expr(e)}
}

// writes writes pieces of which nothing else comes between. Constants take few turns, so that a search looks at fewer states.
func (f *fctx) writes(pieces ...piece) {
	p := f.p
	ops, _, ok := p.operands(pieces)
	if !ok {
		f.emit("%s", p.golf("Write", p.textOfPieces(pieces)))
		return
	}
	p.imports["fmt"] = true
	f.emit("%s", p.golf("Hold"))
	f.emit("fmt.Println(%s)", strings.Join(ops, ", "))
	f.emit("%s", p.golf("Release"))
}

// tellers are the methods that tell something or stop, without the f of a format and without Now.
var tellers = []string{"Log", "Error", "Fatal", "Skip", "Fail"}

// testLog keeps what a method of a test tells, with the place of its call.
func (f *fctx) testLog(c *ast.CallExpr, t string, format bool) {
	p := f.p
	var pieces []piece
	f.early(c.Args...)
	if format {
		pieces = f.formatPieces(c, 0)
	} else {
		pieces = f.printedPieces("Println", c, 0)
		pieces = pieces[:len(pieces)-1]
	}
	where := piece{lit: p.placeOfCall(c), isLit: true}
	if f.helper {
		where = piece{text: fmt.Sprintf("%s(%s, %s)", p.stdFunc("testing", "place"), t, p.textConst(p.placeOfCall(c)))}
	}
	f.emit("%s(%s, %s)", p.stdFunc("testing", "note"), t, p.textOfPieces(append([]piece{where}, pieces...)))
}

// placeOfCall begins what a call tells.
func (p *prog) placeOfCall(c *ast.CallExpr) string {
	at := p.Fset.Position(c.Pos())
	return fmt.Sprintf("%s:%d: ", filepath.Base(at.Filename), at.Line)
}

// callsHelper: the function itself calls the method Helper of a test.
func (p *prog) callsHelper(body *ast.BlockStmt) bool {
	found := false
	ast.Inspect(body, func(n ast.Node) bool {
		c, ok := n.(*ast.CallExpr)
		if ok {
			name := p.calleeName(c)
			found = found || name == "(*testing.T).Helper" || name == "(testing.TB).Helper"
		}
		_, lit := n.(*ast.FuncLit)
		return !found && !lit
	})
	return found
}

// helped lowers a statement. Helpers that it calls with the test tell its place as theirs.
func (f *fctx) helped(s ast.Stmt) {
	c, test := f.handsOn(s)
	if c == nil {
		f.lowerStmt(s)
		return
	}
	f.at(s.Pos())
	t := f.expr(test)
	old := f.temp(fmt.Sprintf("%s(%s, %s)", f.p.stdFunc("testing", "enter"), t, f.p.textConst(f.p.placeOfCall(c))))
	f.lowerStmt(s)
	f.at(s.Pos())
	f.emit("%s(%s, %s)", f.p.stdFunc("testing", "leaveTo"), t, old)
}

// handsOn is the call of a statement that hands the test on to what may be a helper, and the variable of the test. It is nil
// in a helper, and for statements that may leave the function.
func (f *fctx) handsOn(s ast.Stmt) (call *ast.CallExpr, test *ast.Ident) {
	switch s.(type) {
	case *ast.ExprStmt, *ast.AssignStmt, *ast.DeclStmt:
	default:
		return nil, nil
	}
	if !f.p.opt.Tests || f.helper || load.IsStandard(f.p.Fset.Position(s.Pos()).Filename) {
		return nil, nil
	}
	ast.Inspect(s, func(n ast.Node) bool {
		c, ok := n.(*ast.CallExpr)
		if ok && call == nil && f.p.mayHelp(c) {
			for _, a := range c.Args {
				if id, ok := a.(*ast.Ident); ok && id.Name != "nil" && typeKey(f.typeOf(id)) == "*testing.T" {
					call, test = c, id
				}
			}
		}
		_, lit := n.(*ast.FuncLit)
		return call == nil && !lit
	})
	return call, test
}

// mayHelp: a call is one of a helper, or of a value.
func (p *prog) mayHelp(c *ast.CallExpr) bool {
	if p.isBuiltin(c) != "" || p.Info.Types[c.Fun].IsType() {
		return false
	}
	fn := p.callee(c)
	if fn == nil {
		return true
	}
	fd := p.bodies[fn.Origin()]
	return fd != nil && fd.Body != nil && p.callsHelper(fd.Body)
}

// testOf is the test whose method is called. A testing.TB is a *testing.T here, or the program ends.
func (f *fctx) testOf(sel *ast.SelectorExpr, byTB bool) string {
	p := f.p
	path := p.selectionOf(sel).index
	x, _ := p.walkPath(f.expr(sel.X), f.typeOf(sel.X), path[:len(path)-1])
	if !byTB {
		return f.pin(x)
	}
	t := p.Loaded("testing").Types.Scope().Lookup("T").Type()
	v, ok := f.assertOK(f.anyTemp(x), types.NewPointer(t))
	f.emit("if !%s {", ok)
	f.emit("%s", p.golf("Unsupported", p.textConst("a testing.TB that is no *testing.T")))
	f.emit("}")
	return f.pin(v)
}

// testEnd stops a test: its own function returns, another one ends all tests.
func (f *fctx) testEnd(e ast.Expr, t string, skip bool) {
	p := f.p
	if skip {
		f.emit("%s(%s)", p.stdFunc("testing", "skip"), t)
	} else {
		f.emit("%s(%s)", p.stdFunc("testing", "fail"), t)
	}
	if id, ok := ast.Unparen(e).(*ast.Ident); ok && f.testVar != nil && p.Info.Uses[id] == f.testVar {
		f.emit("return")
		return
	}
	p.need(&p.unwind)
	f.emit("golf_goexit()")
	f.leave()
}

// testLiterals notes the function literals that Run is given.
func (p *prog) testLiteral(c *ast.CallExpr) {
	if p.calleeName(c) != "(*testing.T).Run" || len(c.Args) != 2 {
		return
	}
	if lit, ok := ast.Unparen(c.Args[1]).(*ast.FuncLit); ok {
		p.Lits[lit].Test = true
	}
}
