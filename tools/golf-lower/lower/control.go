package lower

import (
	"fmt"
	"go/ast"
	"go/token"
	"go/types"
	"strings"
)

// construct is a statement of the output that break leaves: a loop, a select, or the loop of one
// round that a switch with breaks becomes.
type construct struct {
	label string
	loop  bool     // continue goes to it
	kind  byte     // 'f' loop, 's' select, 'w' switch
	after []string // what is asked right behind it
}

func (f *fctx) push(label string, kind byte) *construct {
	c := &construct{label: label, kind: kind, loop: kind == 'f'}
	f.stack = append(f.stack, c)
	return c
}

// pop ends a construct, whose end has been written.
func (f *fctx) pop() {
	c := f.stack[len(f.stack)-1]
	f.stack = f.stack[:len(f.stack)-1]
	for _, a := range c.after {
		for _, l := range strings.Split(a, "\n") {
			f.emit("%s", l)
		}
	}
}

// branch is break or continue, maybe out of several constructs: by a flag that is asked behind each.
func (f *fctx) branch(s *ast.BranchStmt) {
	p := f.p
	tok := s.Tok
	top := len(f.stack) - 1
	t := top
	for ; t >= 0; t-- {
		c := f.stack[t]
		if tok == token.GOTO {
			if c.label == "goto "+s.Label.Name {
				if c.kind == 'b' {
					tok = token.CONTINUE
				} else {
					tok = token.BREAK
				}
				break
			}
			continue
		}
		if c.kind == 'g' || c.kind == 'b' {
			continue
		}
		if s.Label != nil {
			if c.label == s.Label.Name {
				break
			}
		} else if s.Tok == token.BREAK || c.loop {
			break
		}
	}
	if t < 0 {
		p.refuse("%s to this place", s.Tok)
	}
	word := tok.String()
	direct := t == top
	if tok == token.CONTINUE {
		direct = true
		for k := t + 1; k <= top; k++ {
			direct = direct && f.stack[k].kind == 's'
		}
	}
	if direct {
		f.emit("%s", word)
		return
	}
	flag := f.fresh("leave")
	f.flags = append(f.flags, flag)
	f.emit("%s = true", flag)
	f.emit("break")
	for k := top; k > t; k-- {
		if k == t+1 {
			f.stack[k].after = append(f.stack[k].after, fmt.Sprintf("if %s {\n%s = false\n%s\n}", flag, flag, word))
		} else {
			f.stack[k].after = append(f.stack[k].after, fmt.Sprintf("if %s {\nbreak\n}", flag))
		}
	}
}

// hasBreak: a break inside goes to the switch itself.
func hasBreak(body *ast.BlockStmt, label string) bool {
	found := false
	var walk func(n ast.Node, inner bool)
	walk = func(n ast.Node, inner bool) {
		ast.Inspect(n, func(m ast.Node) bool {
			if m == n {
				return true
			}
			switch m := m.(type) {
			case *ast.FuncLit:
				return false
			case *ast.ForStmt, *ast.RangeStmt, *ast.SwitchStmt, *ast.TypeSwitchStmt, *ast.SelectStmt:
				walk(m, true)
				return false
			case *ast.BranchStmt:
				if m.Tok == token.BREAK && (m.Label == nil && !inner || m.Label != nil && m.Label.Name == label) {
					found = true
				}
			}
			return true
		})
	}
	walk(body, false)
	return found
}

// cases are the clauses of a switch as a chain of ifs, the default last.
func (f *fctx) cases(n int, cond func(int) string, deflt int, body func(int)) {
	depth := 0
	first := true
	for i := 0; i < n; i++ {
		if i == deflt {
			continue
		}
		var c string
		b := f.capture(func() { c = cond(i) })
		switch {
		case first:
			f.splice(b)
			f.emit("if %s {", bare(c))
			depth++
		case len(b.lines) == 0:
			f.emit("} else if %s {", bare(c))
		default:
			f.emit("} else {")
			f.splice(b)
			f.emit("if %s {", bare(c))
			depth++
		}
		first = false
		body(i)
	}
	if deflt >= 0 {
		if first {
			f.emit("{")
			depth++
		} else {
			f.emit("} else {")
		}
		body(deflt)
	}
	for ; depth > 0; depth-- {
		f.emit("}")
	}
}

// orElse is x || y; if y needs statements they run where x is false alone.
func (f *fctx) orElse(x string, y func() string) string {
	var cond string
	b := f.capture(func() { cond = y() })
	if x == "" {
		f.splice(b)
		return cond
	}
	if len(b.lines) == 0 {
		return x + " || " + cond
	}
	t := f.temp(x)
	f.emit("if !%s {", t)
	f.splice(b)
	f.emit("%s = %s", t, bare(cond))
	f.emit("}")
	return t
}

// caseCond is the condition of one expression of a case; tag is the value that is switched on, of type tt.
func (f *fctx) caseCond(s *ast.SwitchStmt, e ast.Expr, tag string, tt types.Type) string {
	p := f.p
	if s.Tag == nil {
		if t := f.typeOf(e); isIface(t) {
			return p.equal(t, f.expr(e), p.toIface("true", types.Typ[types.Bool]))
		}
		return f.expr(e)
	}
	if isNil(p, e) {
		return fmt.Sprintf("(%s == nil)", tag)
	}
	et := f.typeOf(e)
	t, x := tt, tag
	if isIface(et) && !isIface(tt) {
		t = et
		x = f.convert(tag, tt, et)
	}
	return p.equal(t, x, f.convert(f.expr(e), et, t))
}

func (f *fctx) switchStmt(s *ast.SwitchStmt, label string) {
	p := f.p
	if s.Init != nil {
		f.stmt(s.Init)
		f.at(s.Pos())
	}
	loop := hasBreak(s.Body, label)
	if loop {
		f.emit("for {")
		f.push(label, 'w')
	}
	tag := ""
	var tt types.Type
	if s.Tag != nil {
		tt = types.Default(f.typeOf(s.Tag))
		f.early(s.Tag)
		x := f.rval(s.Tag, tt)
		if isName(x) && !strings.Contains(x, ".") && !isNil(p, s.Tag) && f.stable(s.Tag) {
			tag = x
		} else {
			tag = f.fresh("t")
			f.emit("var %s %s = %s", tag, p.lt(tt), x)
		}
	}
	clauses := make([]*ast.CaseClause, len(s.Body.List))
	deflt := -1
	for i, c := range s.Body.List {
		clauses[i] = c.(*ast.CaseClause)
		if clauses[i].List == nil {
			deflt = i
		}
	}
	var body func(i int)
	body = func(i int) {
		list := clauses[i].Body
		if len(list) > 0 {
			if b, ok := list[len(list)-1].(*ast.BranchStmt); ok && b.Tok == token.FALLTHROUGH {
				f.stmts(list[:len(list)-1])
				f.emit("{")
				body(i + 1)
				f.emit("}")
				return
			}
		}
		f.stmts(list)
	}
	f.cases(len(clauses), func(i int) string {
		f.at(clauses[i].Pos())
		cond := ""
		for _, e := range clauses[i].List {
			cond = f.orElse(cond, func() string {
				f.early(e)
				f.second(e)
				return f.caseCond(s, e, tag, tt)
			})
		}
		return cond
	}, deflt, body)
	f.at(s.Body.Rbrace)
	if loop {
		f.emit("break")
		f.emit("}")
		f.pop()
	}
}

// anyTemp is an interface in a variable.
func (f *fctx) anyTemp(x string) string {
	if x != "nil" {
		return f.pin(x)
	}
	t := f.fresh("t")
	f.emit("var %s *golf_any", t)
	return t
}

func (f *fctx) typeSwitch(s *ast.TypeSwitchStmt, label string) {
	p := f.p
	if s.Init != nil {
		f.stmt(s.Init)
		f.at(s.Pos())
	}
	loop := hasBreak(s.Body, label)
	if loop {
		f.emit("for {")
		f.push(label, 'w')
	}
	var e ast.Expr
	switch a := s.Assign.(type) {
	case *ast.AssignStmt:
		e = a.Rhs[0].(*ast.TypeAssertExpr).X
	case *ast.ExprStmt:
		e = a.X.(*ast.TypeAssertExpr).X
	}
	x := f.anyTemp(f.expr(e))
	deflt := -1
	clauses := make([]*ast.CaseClause, len(s.Body.List))
	for i, c := range s.Body.List {
		clauses[i] = c.(*ast.CaseClause)
		if clauses[i].List == nil {
			deflt = i
		}
	}
	f.cases(len(clauses), func(i int) string {
		f.at(clauses[i].Pos())
		var cs []string
		for _, e := range clauses[i].List {
			if isNil(p, e) {
				cs = append(cs, fmt.Sprintf("(%s == nil)", x))
			} else {
				cs = append(cs, p.holds(x, f.typeOf(e)))
			}
		}
		return strings.Join(cs, " || ")
	}, deflt, func(i int) {
		c := clauses[i]
		if v, ok := p.Info.Implicits[c].(*types.Var); ok {
			val := x
			if !isIface(p.vtype(v)) {
				val = p.copyOf(p.vtype(v), x+"."+p.dynOf(p.vtype(v)).field())
			}
			f.declare(v, val)
		}
		f.stmts(c.Body)
	})
	f.at(s.Body.Rbrace)
	if loop {
		f.emit("break")
		f.emit("}")
		f.pop()
	}
}

// hasDefault: the select never waits.
func hasDefault(s *ast.SelectStmt) bool {
	for _, c := range s.Body.List {
		if c.(*ast.CommClause).Comm == nil {
			return true
		}
	}
	return false
}

// clause is a case of a select.
type clause struct {
	*ast.CommClause
	operands []string // the channel, and what is sent
	head     string
	pre      *buffer // stores what is received
}

func (f *fctx) selectStmt(s *ast.SelectStmt, label string) {
	if f.onlyCase(s, label) {
		return
	}
	waits := !hasDefault(s)
	cs := f.clauses(s, waits)
	f.at(s.Pos())
	if waits {
		f.away()
	}
	f.emit("select {")
	f.push(label, 's')
	for _, c := range cs {
		f.at(c.Pos())
		f.emit("%s", c.head)
		if waits {
			f.backAgain()
		}
		f.splice(c.pre)
		f.stmts(c.Body)
	}
	f.at(s.Body.Rbrace)
	f.emit("}")
	f.pop()
}

// clauses are the cases of a select. Their operands are evaluated one after the other, each as a whole, at the line of the
// select.
func (f *fctx) clauses(s *ast.SelectStmt, waits bool) []*clause {
	var list []*clause
	var gs []func() string
	var of []*clause // of each operand
	for _, st := range s.Body.List {
		c := &clause{CommClause: st.(*ast.CommClause), pre: &buffer{}}
		list = append(list, c)
		for _, g := range f.operands(c.Comm) {
			gs, of = append(gs, g), append(of, c)
		}
	}
	f.at(s.Pos())
	for i, x := range f.ordered(gs...) {
		if waits {
			x = f.settle(x)
		}
		of[i].operands = append(of[i].operands, x)
	}
	for _, c := range list {
		f.at(c.Pos())
		c.head = f.head(c)
	}
	return list
}

// operands are the operands of a case: its channel, and what it sends.
func (f *fctx) operands(comm ast.Stmt) []func() string {
	channel := func(e ast.Expr) func() string {
		return func() string {
			return f.alone(e)
		}
	}
	if m, ok := comm.(*ast.SendStmt); ok {
		return []func() string{channel(m.Chan), func() string {
			f.early(m.Value)
			return f.rval(m.Value, f.elemOf(m.Chan))
		}}
	}
	if ch := receivesFrom(comm); ch != nil {
		return []func() string{channel(ch)}
	}
	return nil
}

// receivesFrom is the channel from which a case of a select receives, nil if it does not.
func receivesFrom(comm ast.Stmt) ast.Expr {
	switch m := comm.(type) {
	case *ast.ExprStmt:
		return ast.Unparen(m.X).(*ast.UnaryExpr).X
	case *ast.AssignStmt:
		return ast.Unparen(m.Rhs[0]).(*ast.UnaryExpr).X
	}
	return nil
}

// head is the line that begins a case. What it receives may have to be stored behind it.
func (f *fctx) head(c *clause) string {
	switch m := c.Comm.(type) {
	case *ast.SendStmt:
		return fmt.Sprintf("case %s <- %s:", c.operands[0], c.operands[1])
	case *ast.ExprStmt:
		return fmt.Sprintf("case <-%s:", c.operands[0])
	case *ast.AssignStmt:
		et := f.elemOf(receivesFrom(m))
		r := &ranger{f: f, s: &ast.RangeStmt{Tok: m.Tok}}
		if len(m.Lhs) == 1 && !isRef(et) {
			if name, plain := r.plain(m.Lhs[0], "t"); plain {
				return fmt.Sprintf("case %s := <-%s:", name, c.operands[0])
			}
		}
		v, ok := f.fresh("t"), f.fresh("ok")
		c.pre = f.capture(func() { f.storeReceived(m, v, ok, et) })
		if len(m.Lhs) == 1 {
			return fmt.Sprintf("case %s := <-%s:", v, c.operands[0])
		}
		return fmt.Sprintf("case %s, %s := <-%s:", v, ok, c.operands[0])
	}
	return "default:"
}

// storeReceived stores what a case has received. Its places are evaluated only then.
func (f *fctx) storeReceived(m *ast.AssignStmt, v, ok string, et types.Type) {
	f.storePart(m, m.Lhs[0], f.received(v, et), et)
	if len(m.Lhs) == 2 {
		f.storePart(m, m.Lhs[1], ok, types.Typ[types.Bool])
	}
}

func (f *fctx) forStmt(s *ast.ForStmt, label string) {
	p := f.p
	ib := &buffer{}
	if s.Init != nil {
		ib = f.capture(func() { f.stmt(s.Init) })
	}
	own := f.ownVars(s)
	cond := "true"
	cb := &buffer{}
	if s.Cond != nil {
		f.at(s.Cond.Pos())
		cb = f.capture(func() {
			cond = f.alone(s.Cond)
		})
	}
	pb := &buffer{}
	if s.Post != nil {
		pb = f.capture(func() { f.stmt(s.Post) })
	}
	f.at(s.Pos())
	if len(own) == 0 && len(cb.lines) == 0 && (len(pb.lines) == 0 || len(pb.lines) == 1 && isSimple(pb.lines[0].Text)) {
		f.simpleFor(s, ib, cond, pb, label)
		return
	}
	f.splice(ib)
	f.push(label, 'f')
	// the last part of the header runs at the begin of each round but the first
	first := f.fresh("first")
	f.emit("%s := true", first)
	f.emit("for {")
	f.emit("if !%s {", first)
	for _, v := range own {
		n := f.varName(v)
		if isRef(p.vtype(v)) {
			f.emit("%s = %s", n, p.copyOf(p.vtype(v), n))
			continue
		}
		f.emit("%s = &%s{v: %s.v}", n, p.box(p.lt(p.vtype(v))), n)
	}
	f.splice(pb)
	f.emit("}")
	f.emit("%s = false", first)
	f.splice(cb)
	if s.Cond != nil {
		f.emit("if !%s {", cond)
		f.emit("break")
		f.emit("}")
	}
	f.stmts(s.Body.List)
	f.at(s.Body.Rbrace)
	f.emit("}")
	f.pop()
}

// onlyCase is a select with one case, which Go takes as the send or receive alone.
func (f *fctx) onlyCase(s *ast.SelectStmt, label string) bool {
	if len(s.Body.List) != 1 || hasBreak(s.Body, label) {
		return false
	}
	c := s.Body.List[0].(*ast.CommClause)
	if c.Comm == nil {
		return false
	}
	if m, ok := c.Comm.(*ast.AssignStmt); ok && m.Tok == token.ASSIGN {
		f.at(c.Comm.Pos())
		ch := receivesFrom(m)
		x := f.settle(f.alone(ch))
		v, ok := f.fresh("t"), f.fresh("ok")
		names := v
		if len(m.Lhs) == 2 {
			names += ", " + ok
		}
		f.waiting(func() { f.emit("%s := <-%s", names, x) })
		f.storeReceived(m, v, ok, f.elemOf(ch))
	} else {
		f.stmt(c.Comm)
	}
	f.stmts(c.Body)
	return true
}

// ownVars are the variables of the header that each iteration has for itself.
func (f *fctx) ownVars(s *ast.ForStmt) []*types.Var {
	p := f.p
	var own []*types.Var
	if a, ok := s.Init.(*ast.AssignStmt); ok && a.Tok == token.DEFINE {
		for _, l := range a.Lhs {
			if id, ok := l.(*ast.Ident); ok {
				if v, ok := p.Info.Defs[id].(*types.Var); ok && (p.isBoxed(v) || isRef(p.vtype(v))) {
					own = append(own, v)
				}
			}
		}
	}
	return own
}

// isSimple: the statement may stand in the header of a loop.
func isSimple(t string) bool {
	return !strings.HasPrefix(t, "var ") && !strings.Contains(t, ":=") && !strings.Contains(t, "{") && !strings.HasPrefix(t, "_ =")
}

// isInit: the statement may begin the header of a loop.
func isInit(t string) bool {
	name, value, ok := strings.Cut(t, " := ")
	return ok && isWord(name) && !strings.ContainsAny(value, "&{")
}

// simpleFor is a loop with a header of the subset.
func (f *fctx) simpleFor(s *ast.ForStmt, ib *buffer, cond string, pb *buffer, label string) {
	init, post := "", ""
	if len(ib.lines) == 1 && isInit(ib.lines[0].Text) {
		init = ib.lines[0].Text
	} else {
		f.splice(ib)
	}
	if len(pb.lines) == 1 {
		post = pb.lines[0].Text
	}
	if s.Cond == nil {
		cond = ""
	}
	f.push(label, 'f')
	switch {
	case init == "" && post == "" && cond == "":
		f.emit("for {")
	case init == "" && post == "":
		f.emit("for %s {", bare(cond))
	case post == "":
		f.emit("for %s; %s; {", init, bare(cond))
	default:
		f.emit("for %s; %s; %s {", init, bare(cond), post)
	}
	f.stmts(s.Body.List)
	f.at(s.Body.Rbrace)
	f.emit("}")
	f.pop()
}

// stable: nobody assigns to the variable, so that it can be read again later.
func (f *fctx) stable(e ast.Expr) bool {
	id, ok := ast.Unparen(e).(*ast.Ident)
	if !ok {
		return false
	}
	v, ok := f.p.Info.Uses[id].(*types.Var)
	if !ok || v.Pkg() != nil && v.Parent() == v.Pkg().Scope() {
		return false
	}
	i := f.p.Vars[v]
	return i != nil && !i.Assigned && !i.Addr
}
