package desugar

import (
	"go/ast"
	"go/constant"
	"go/token"
	"go/types"
)

// A range over a function is a call of it with the body as a literal: continue is return true, break is return false. A
// variable says where the loop is. A return, or a branch to a statement around the loop, leaves its number there, which is
// asked behind the call. The literal asks first whether the loop has ended: then the iterator is wrong, as in Go.

// What the variable of a loop says. The branches to statements around the loop have the numbers from outward on.
const (
	running  = 0
	broken   = 1
	ended    = 2
	returned = 3
	outward  = 4
)

// yieldOf is the type of yield if a range over the type calls it.
func yieldOf(t types.Type) (*types.Signature, bool) {
	if _, ok := types.Unalias(t).(*types.TypeParam); ok {
		return nil, false
	}
	sig, ok := t.Underlying().(*types.Signature)
	if !ok || sig.Params().Len() != 1 {
		return nil, false
	}
	y, ok := sig.Params().At(0).Type().Underlying().(*types.Signature)
	return y, ok
}

// exits rewrites the body of one loop.
type exits struct {
	*desugarer
	label   string
	state   *types.Var
	results []*types.Var // what keeps the results of a return: those of the function that have names, and new variables
	own     []*types.Var // the new ones
	returns bool
	outer   []*ast.BranchStmt // branches to statements around the loop
	labels  map[string]bool   // labels inside of the body
}

// loop is the call that a range over a function is.
func (d *desugarer) loop(s *ast.RangeStmt, label *ast.Ident, yield *types.Signature) ast.Stmt {
	pos := s.Pos()
	x := &exits{desugarer: d, state: d.variable("loop", types.Typ[types.Int], pos), labels: map[string]bool{}}
	if label != nil {
		x.label = label.Name
	}
	x.keep(pos)
	x.look(s.Body)
	x.list(s.Body.List, false, false)
	call := &ast.CallExpr{Fun: s.X, Lparen: pos, Args: []ast.Expr{x.literal(s, yield)}, Rparen: s.Body.Rbrace}
	d.info.Types[call] = types.TypeAndValue{Type: types.NewTuple()}
	list := []ast.Stmt{d.declare(x.state, pos)}
	if x.returns {
		for _, r := range x.own {
			list = append(list, d.declare(r, pos))
		}
	}
	list = append(list, &ast.ExprStmt{X: call})
	list = append(list, x.behind(pos)...)
	return &ast.BlockStmt{List: list, Rbrace: s.Body.Rbrace}
}

// keep finds the variables that keep the results of a return. The iterator, which goes on behind the return, sees those that have
// names.
func (x *exits) keep(pos token.Pos) {
	for i := range x.sig.Results().Len() {
		r := x.sig.Results().At(i)
		if r.Name() == "" || r.Name() == "_" {
			r = x.variable("result", r.Type(), pos)
			x.own = append(x.own, r)
		}
		x.results = append(x.results, r)
	}
}

// look notes the labels of the body, and refuses what cannot be in a literal.
func (x *exits) look(body *ast.BlockStmt) {
	ast.Inspect(body, func(n ast.Node) bool {
		switch n := n.(type) {
		case *ast.FuncLit:
			return false
		case *ast.LabeledStmt:
			x.labels[n.Label.Name] = true
		case *ast.DeferStmt:
			x.refuse(n.Pos(), "defer in a range over a function")
		case *ast.CallExpr:
			if id, ok := n.Fun.(*ast.Ident); ok {
				if b, ok := x.info.Uses[id].(*types.Builtin); ok && b.Name() == "recover" {
					x.refuse(n.Pos(), "recover in a range over a function")
				}
			}
		}
		return true
	})
}

// literal is the function that the iterator calls.
func (x *exits) literal(s *ast.RangeStmt, yield *types.Signature) *ast.FuncLit {
	pos := s.Pos()
	params, first := x.params(s, yield)
	result := types.NewTuple(types.NewVar(pos, x.pkg, "", types.Typ[types.Bool]))
	body := append(x.guard(pos), first...)
	body = append(body, s.Body.List...)
	body = append(body, x.truth(true, s.Body.Rbrace))
	lit := &ast.FuncLit{
		Type: &ast.FuncType{Func: pos, Params: &ast.FieldList{}},
		Body: &ast.BlockStmt{Lbrace: s.Body.Lbrace, List: body, Rbrace: s.Body.Rbrace},
	}
	sig := types.NewSignatureType(nil, nil, nil, types.NewTuple(params...), result, false)
	x.info.Types[lit] = types.TypeAndValue{Type: sig}
	return lit
}

// params are the parameters of the literal, and the assignments to variables that were there before the loop.
func (x *exits) params(s *ast.RangeStmt, yield *types.Signature) (params []*types.Var, first []ast.Stmt) {
	pos := s.Pos()
	given := []ast.Expr{s.Key, s.Value}
	for i := 0; i < yield.Params().Len() && i < len(given); i++ {
		t, e := yield.Params().At(i).Type(), given[i]
		if id, ok := e.(*ast.Ident); ok && s.Tok == token.DEFINE && id.Name != "_" {
			params = append(params, x.info.Defs[id].(*types.Var))
			continue
		}
		v := x.variable("_", t, pos)
		if e != nil && !isBlank(e) {
			v = x.variable("value", t, pos)
			first = append(first, &ast.AssignStmt{Lhs: []ast.Expr{e}, TokPos: pos, Tok: token.ASSIGN, Rhs: []ast.Expr{x.use(v, pos)}})
		}
		params = append(params, v)
	}
	return params, first
}

// guard panics if the loop has ended.
func (x *exits) guard(pos token.Pos) []ast.Stmt {
	return []ast.Stmt{
		x.when(token.EQL, ended, x.panics("runtime error: range function continued iteration after whole loop exit", pos), pos),
		x.when(token.NEQ, running, x.panics("runtime error: range function continued iteration after function for loop body returned false", pos), pos),
	}
}

// panics is a call of panic.
func (x *exits) panics(text string, pos token.Pos) ast.Stmt {
	id := &ast.Ident{NamePos: pos, Name: "panic"}
	x.info.Uses[id] = types.Universe.Lookup("panic")
	arg := x.constant(constant.MakeString(text), types.Typ[types.String], pos)
	call := &ast.CallExpr{Fun: id, Lparen: pos, Args: []ast.Expr{arg}, Rparen: pos}
	x.info.Types[call] = types.TypeAndValue{Type: types.NewTuple()}
	return &ast.ExprStmt{X: call}
}

// when does something if the variable of the loop is, or is not, a number.
func (x *exits) when(op token.Token, n int, then ast.Stmt, pos token.Pos) ast.Stmt {
	c := &ast.BinaryExpr{X: x.use(x.state, pos), OpPos: pos, Op: op, Y: x.integer(n, pos)}
	x.info.Types[c] = types.TypeAndValue{Type: types.Typ[types.Bool]}
	return &ast.IfStmt{If: pos, Cond: c, Body: &ast.BlockStmt{Lbrace: pos, List: []ast.Stmt{then}, Rbrace: pos}}
}

// behind is what follows the call.
func (x *exits) behind(pos token.Pos) []ast.Stmt {
	var list []ast.Stmt
	if x.returns {
		r := &ast.ReturnStmt{Return: pos}
		for _, v := range x.results {
			r.Results = append(r.Results, x.use(v, pos))
		}
		list = append(list, x.when(token.EQL, returned, r, pos))
	}
	for i, b := range x.outer {
		list = append(list, x.when(token.EQL, outward+i, b, pos))
	}
	return append(list, x.assign(x.state, x.integer(ended, pos), pos))
}

// list rewrites statements; inBreak and inLoop: a break or continue without a label is of a statement inside.
func (x *exits) list(list []ast.Stmt, inBreak, inLoop bool) {
	for i, s := range list {
		list[i] = x.exit(s, inBreak, inLoop)
	}
}

func (x *exits) exit(s ast.Stmt, inBreak, inLoop bool) ast.Stmt {
	switch s := s.(type) {
	case *ast.BlockStmt:
		x.list(s.List, inBreak, inLoop)
	case *ast.IfStmt:
		x.list(s.Body.List, inBreak, inLoop)
		if s.Else != nil {
			s.Else = x.exit(s.Else, inBreak, inLoop)
		}
	case *ast.ForStmt:
		x.list(s.Body.List, true, true)
	case *ast.RangeStmt:
		x.list(s.Body.List, true, true)
	case *ast.SwitchStmt:
		x.cases(s.Body, inLoop)
	case *ast.TypeSwitchStmt:
		x.cases(s.Body, inLoop)
	case *ast.SelectStmt:
		x.cases(s.Body, inLoop)
	case *ast.LabeledStmt:
		s.Stmt = x.exit(s.Stmt, inBreak, inLoop)
	case *ast.ReturnStmt:
		return x.ret(s)
	case *ast.BranchStmt:
		return x.branch(s, inBreak, inLoop)
	}
	return s
}

func (x *exits) cases(body *ast.BlockStmt, inLoop bool) {
	for _, c := range body.List {
		switch c := c.(type) {
		case *ast.CaseClause:
			x.list(c.Body, true, inLoop)
		case *ast.CommClause:
			x.list(c.Body, true, inLoop)
		}
	}
}

// branch is a branch as the literal has it.
func (x *exits) branch(s *ast.BranchStmt, inBreak, inLoop bool) ast.Stmt {
	pos := s.Pos()
	own := s.Label != nil && x.label != "" && s.Label.Name == x.label
	plain := s.Label == nil
	switch {
	case s.Tok == token.FALLTHROUGH || !plain && x.labels[s.Label.Name]:
		return s
	case s.Tok == token.GOTO:
		x.refuse(pos, "goto out of a range over a function")
	case s.Tok == token.CONTINUE && (own || plain && !inLoop):
		return x.truth(true, pos)
	case s.Tok == token.BREAK && (own || plain && !inBreak):
		return x.leave(broken, pos)
	case !plain:
		x.outer = append(x.outer, s)
		return x.leave(outward+len(x.outer)-1, pos)
	}
	return s
}

// leave ends the loop, and says how.
func (x *exits) leave(n int, pos token.Pos, first ...ast.Stmt) ast.Stmt {
	list := append(first, x.assign(x.state, x.integer(n, pos), pos), x.truth(false, pos))
	return &ast.BlockStmt{Lbrace: pos, List: list, Rbrace: pos}
}

// ret keeps the results of a return for behind the call.
func (x *exits) ret(s *ast.ReturnStmt) ast.Stmt {
	pos := s.Pos()
	x.returns = true
	var first []ast.Stmt
	if len(s.Results) > 0 {
		a := &ast.AssignStmt{TokPos: pos, Tok: token.ASSIGN, Rhs: s.Results}
		for _, v := range x.results {
			a.Lhs = append(a.Lhs, x.use(v, pos))
		}
		first = append(first, a)
	}
	return x.leave(returned, pos, first...)
}
