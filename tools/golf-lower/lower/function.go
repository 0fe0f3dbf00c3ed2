package lower

import (
	"fmt"
	"go/ast"
	"go/token"
	"go/types"
	"strings"
)

// fctx is the lowering of one function.
type fctx struct {
	p       *prog
	out     *buffer
	ln      token.Pos // the user's place of what is being lowered
	name    string
	sig     *types.Signature
	named   []*types.Var    // named results
	defers  bool            // it has deferred calls
	inner   bool            // the results are boxes that the caller reads after the deferred calls
	stack   []*construct    // what break and continue can leave, outermost first
	flags   []string        // variables for breaks across several constructs
	label   string          // of the statement that comes next
	taken   map[string]bool // names of its variables
	testVar *types.Var      // the testing.T of a test
	helper  bool            // it calls Helper: what it tells has the place of its caller
	wrapped *string         // gets the operand of %w
	hard    bool            // on the left of a, b = ..: a variable may change before it is used

	caps    map[types.Object]bool // the variables that it captures
	hoisted map[ast.Expr]string   // what has been evaluated before its statement (order.go)
}

func (p *prog) newFctx(name string) *fctx {
	return &fctx{p: p, out: &buffer{}, name: name, taken: map[string]bool{}}
}

// fresh is a new name for a variable of the function.
func (f *fctx) fresh(base string) string { return f.p.names.local(base, f.taken) }

// varName is the name of a local variable.
func (f *fctx) varName(v *types.Var) string {
	key := nameKey{v, f.p.subKey}
	n, ok := f.p.names.objs[key]
	if !ok {
		n = f.fresh(ascii(v.Name()))
		f.p.names.objs[key] = n
	}
	f.taken[n] = true
	return n
}

// captured is the name that a captured variable has in the function that declares it.
func (p *prog) captured(v *types.Var) string {
	if n, ok := p.names.objs[nameKey{v, p.subKey}]; ok {
		return n
	}
	p.refuse("captured variable %s", v.Name())
	return ""
}

func (f *fctx) emit(format string, args ...any) { f.out.add(f.ln, format, args...) }

// bare takes the brackets around a whole condition away.
func bare(x string) string {
	if !strings.HasPrefix(x, "(") || !strings.HasSuffix(x, ")") || strings.Contains(x, `"`) {
		return x
	}
	depth := 0
	for i, c := range x {
		switch c {
		case '(':
			depth++
		case ')':
			depth--
		}
		if depth == 0 && i < len(x)-1 {
			return x
		}
	}
	return x[1 : len(x)-1]
}

// at sets the place of what comes.
func (f *fctx) at(pos token.Pos) {
	if pos.IsValid() {
		f.p.pos = pos
		f.ln = f.p.orig(pos)
	}
}

// capture runs g with a buffer of its own.
func (f *fctx) capture(g func()) *buffer {
	old := f.out
	f.out = &buffer{}
	g()
	b := f.out
	f.out = old
	return b
}

func (f *fctx) splice(b *buffer) { f.out.lines = append(f.out.lines, b.lines...) }

// pin evaluates now, and gives a text that can be used twice.
func (f *fctx) pin(x string) string {
	if f.hard && !isLiteral(x) {
		return f.temp(x)
	}
	if isSmall(x) {
		return x
	}
	return f.temp(x)
}

func (f *fctx) temp(x string) string {
	if x == "nil" { // it has no type
		return x
	}
	t := f.fresh("t")
	f.emit("%s := %s", t, x)
	return t
}

// ordered lowers operands from left to right: if a later one needs statements of its own,
// the earlier ones are evaluated before these.
func (f *fctx) ordered(gs ...func() string) []string {
	res := make([]string, len(gs))
	for i, g := range gs {
		b := f.capture(func() { res[i] = g() })
		if len(b.lines) > 0 {
			for j := 0; j < i; j++ {
				res[j] = f.pin(res[j])
			}
			f.splice(b)
		}
	}
	return res
}

// result is the result type of a signature in the subset, "" for none.
func (p *prog) result(sig *types.Signature) string {
	switch sig.Results().Len() {
	case 0:
		return ""
	case 1:
		return p.lt(p.subst(sig.Results().At(0).Type()))
	}
	return p.lt(p.tuple(sig.Results()))
}

func (p *prog) varType(v *types.Var) string {
	l := p.lt(p.vtype(v))
	if p.isBoxed(v) {
		return "*" + p.box(l)
	}
	return l
}

// isBoxed: the variable lives in a box on the heap, since Go shares it by reference.
// A variable that nobody assigns to after its declaration is captured by value.
func (p *prog) isBoxed(v *types.Var) bool {
	if isRef(p.vtype(v)) {
		return false
	}
	i := p.Vars[v]
	return i != nil && (i.Addr || i.Captured && i.Assigned)
}

// function is a function that is to be lowered. What it captures (lambda lifting) comes first among its parameters.
type function struct {
	name string
	caps []*types.Var
	recv *types.Var
	sig  *types.Signature
	body *ast.BlockStmt
	pos  token.Pos
	test bool // it is a test: its first parameter is its testing.T
}

func (p *prog) function(fn *function) {
	p.chunk(p.functionBuf(fn))
}

// functionBuf lowers a function into a buffer of its own.
func (p *prog) functionBuf(fn *function) *buffer {
	f := p.newFctx(fn.name)
	f.sig = fn.sig
	p.findTargets(fn.body, fn.sig.Results())
	f.caps = map[types.Object]bool{}
	for _, v := range fn.caps {
		f.caps[v] = true
	}
	if p.Fset.Position(fn.pos).Filename == clockFile {
		p.clockwork[fn.name] = true
	}
	f.defers = hasDefer(fn.body)
	if fn.test {
		f.testVar = fn.sig.Params().At(0)
	}
	f.at(fn.pos)
	f.helper = p.opt.Tests && f.user() && p.callsHelper(fn.body)
	entry := &buffer{}
	params, args := f.params(fn, entry)
	shared := false
	for i := 0; i < fn.sig.Results().Len(); i++ {
		if r := fn.sig.Results().At(i); r.Name() != "" {
			f.named = append(f.named, r)
			shared = shared || p.isBoxed(r) || isRef(p.vtype(r))
		}
	}
	res := p.result(fn.sig)
	header := strings.TrimSpace(fmt.Sprintf("func %s(%s) %s", fn.name, strings.Join(params, ", "), res))
	if shared && hasDefer(fn.body) {
		header = f.outer(fn, header, params, args)
		res = ""
	}
	b := &buffer{}
	b.add(f.ln, "%s {", header)
	if !f.inner {
		f.declareResults(fn.body, entry)
	}
	f.stmts(fn.body.List)
	f.at(fn.body.Rbrace)
	for _, fl := range f.flags {
		b.add(f.ln, "%s := false", fl)
	}
	b.lines = append(b.lines, entry.lines...)
	b.lines = append(b.lines, f.out.lines...)
	if last := b.lines[len(b.lines)-1].Text; res != "" && !strings.HasPrefix(last, "return") {
		b.add(f.ln, "panic(\"unreachable\")")
	}
	b.add(f.ln, "}")
	return b
}

// params are the parameters of a function, and their names; a parameter that needs a box gets one at the entry.
func (f *fctx) params(fn *function, entry *buffer) (params, args []string) {
	p := f.p
	for _, v := range fn.caps {
		n := p.captured(v)
		f.taken[n] = true
		p.names.objs[nameKey{v, p.subKey}] = n
		params = append(params, n+" "+p.varType(v))
		args = append(args, n)
	}
	var vars []*types.Var
	if fn.recv != nil {
		vars = append(vars, fn.recv)
	}
	for i := 0; i < fn.sig.Params().Len(); i++ {
		vars = append(vars, fn.sig.Params().At(i))
	}
	for _, v := range vars {
		l := p.lt(p.vtype(v))
		var n string
		switch {
		case v.Name() == "" || v.Name() == "_":
			n = f.fresh("unused")
		case p.isBoxed(v):
			box := f.varName(v)
			n = f.fresh(ascii(v.Name()) + "In")
			entry.add(f.ln, "%s := &%s{v: %s}", box, p.box(l), n)
			if i := p.Vars[v]; i == nil || !i.Used {
				entry.lines = entry.lines[:len(entry.lines)-1]
			}
		default:
			n = f.varName(v)
		}
		params = append(params, n+" "+l)
		args = append(args, n)
	}
	return params, args
}

// outer writes the function around one whose results a deferred literal can change: the inner function fills boxes. It
// gives the header of the inner one.
func (f *fctx) outer(fn *function, header string, params, args []string) string {
	p := f.p
	f.inner = true
	var outer buffer
	innerName := p.fresh(fn.name + "_body")
	p.inner[fn.name] = innerName
	outer.add(f.ln, "%s {", header)
	for _, r := range f.named {
		i := p.Vars[r]
		i.Captured, i.Assigned = true, true
		if r.Name() == "_" {
			p.refuse("a result named _ beside one that a function literal changes")
		}
		t := p.vtype(r)
		n := f.varName(r)
		if p.isBoxed(r) {
			outer.add(f.ln, "%s := &%s{v: %s}", n, p.box(p.lt(t)), p.zero(t))
		} else {
			outer.add(f.ln, "%s := %s", n, p.zero(t))
		}
		params = append(params, n+" "+p.varType(r))
		args = append(args, n)
	}
	outer.add(f.ln, "%s(%s)", innerName, strings.Join(args, ", "))
	outer.add(f.ln, "return %s", f.namedResult())
	outer.add(f.ln, "}")
	p.chunk(&outer)
	return fmt.Sprintf("func %s(%s)", innerName, strings.Join(params, ", "))
}

// declareResults makes variables of the named results.
func (f *fctx) declareResults(body *ast.BlockStmt, entry *buffer) {
	p := f.p
	stored := hasBareReturn(body) || p.unwind && f.defers // or a return assigns to all of them
	for _, r := range f.named {
		stored = stored || p.isBoxed(r)
	}
	for _, r := range f.named {
		if r.Name() == "_" {
			continue
		}
		if i := p.Vars[r]; i != nil && stored {
			i.Used = true
		}
		old := f.out
		f.out = entry
		f.declare(r, p.zero(p.vtype(r)))
		f.out = old
	}
}

// namedResult is what a bare return gives.
func (f *fctx) namedResult() string {
	var parts []string
	for _, r := range f.named {
		if r.Name() == "_" {
			parts = append(parts, f.p.zero(f.p.vtype(r)))
		} else {
			parts = append(parts, f.varRef(r))
		}
	}
	if len(parts) == 1 {
		return parts[0]
	}
	return f.p.pack(f.p.tuple(f.sig.Results()), parts)
}

// pack makes the struct of several results.
func (p *prog) pack(t *types.Tuple, parts []string) string {
	var fs []string
	for i, x := range parts {
		fs = append(fs, fmt.Sprintf("r%d: %s", i, x))
	}
	return fmt.Sprintf("(&%s{%s})", p.resStruct(t), strings.Join(fs, ", "))
}

func hasDefer(b *ast.BlockStmt) bool {
	found := false
	ast.Inspect(b, func(n ast.Node) bool {
		switch n.(type) {
		case *ast.FuncLit:
			return false
		case *ast.DeferStmt:
			found = true
		}
		return !found
	})
	return found
}

func hasBareReturn(b *ast.BlockStmt) bool {
	found := false
	ast.Inspect(b, func(n ast.Node) bool {
		switch n := n.(type) {
		case *ast.FuncLit:
			return false
		case *ast.ReturnStmt:
			found = found || len(n.Results) == 0
		}
		return !found
	})
	return found
}

// declare makes a local variable.
func (f *fctx) declare(v *types.Var, value string) {
	p := f.p
	l := p.lt(p.vtype(v))
	if i := p.Vars[v]; i == nil || !i.Used {
		if !isSmall(value) {
			f.discard(value)
		}
		return
	}
	n := f.varName(v)
	switch {
	case p.isBoxed(v):
		f.emit("%s := &%s{v: %s}", n, p.box(l), value)
	case value == "nil":
		f.emit("var %s %s", n, l)
	case strings.HasPrefix(l, "<-chan ") || strings.HasPrefix(l, "chan<- "):
		f.emit("var %s %s = %s", n, l, bare(value)) // the channel may have both directions
	default:
		f.emit("%s := %s", n, bare(value))
	}
}

// varRef is the value of a variable.
func (f *fctx) varRef(v *types.Var) string {
	if v.Pkg() != nil && v.Parent() == v.Pkg().Scope() {
		return f.p.globalRef(v)
	}
	n := f.varName(v)
	if f.p.isBoxed(v) {
		return n + ".v"
	}
	return n
}

// discard evaluates a value that nobody reads.
func (f *fctx) discard(x string) {
	if x = discard(x); x != "" {
		f.emit("%s", x)
	}
}

// discard evaluates what nobody reads.
func discard(x string) string {
	if isLiteral(x) {
		return ""
	}
	return "_ = " + x
}
