package lower

import (
	"fmt"
	"go/ast"
	"go/constant"
	"go/token"
	"go/types"
	"sort"
	"strings"
	"unicode/utf8"

	"golflower/analyse"
	"golflower/load"
)

// Strings. The subset has string constants, == and Println, and no string that is made at run time. If the user's files
// make none, their strings are those of the subset. Otherwise each string of the program is a *golf_Text, which _std/golf
// implements, and a line with such a text in it is written in parts (output.go).

// tie is the mark between the parts of a line that are written one after the other.
const tie = "‿"

func (p *prog) textType() types.Type { return p.Loaded("golf").Types.Scope().Lookup("Text").Type() }

// isLit: the type is that of constants in _std/golf.
func isLit(t types.Type) bool {
	n, ok := types.Unalias(t).(*types.Named)
	return ok && n.Obj().Pkg() != nil && n.Obj().Pkg().Path() == "golf" && n.Obj().Name() == "Lit"
}

func isString(t types.Type) bool {
	b, ok := under(t).(*types.Basic)
	return ok && b.Info()&types.IsString != 0
}

// isText: values of the type are texts that are made at run time.
func (p *prog) isText(t types.Type) bool { return p.texts && isString(t) && !isLit(t) }

// quotable: a literal of the subset, which is also one of Go, can hold the string.
func quotable(s string) bool {
	return !strings.ContainsAny(s, "\x00\r\uFEFF") && utf8.ValidString(s)
}

// quote is a string literal of the subset.
func (p *prog) quote(s string) string {
	if !quotable(s) {
		p.refuse("this string as a constant of golf")
	}
	if strings.Contains(s, tie) && !load.IsStandard(p.Fset.Position(p.pos).Filename) {
		p.refuse("the character %s in a string", tie)
	}
	return quoted(s)
}

func quoted(s string) string {
	r := strings.NewReplacer("\\", "\\\\", "\"", "\\\"", "\n", "\\n", "\t", "\\t")
	return `"` + r.Replace(s) + `"`
}

// textConst is a string constant as a text.
func (p *prog) textConst(s string) string {
	if s == "" {
		return "nil"
	}
	if !quotable(s) {
		elem := types.Typ[types.Byte]
		var xs []string
		for i := 0; i < len(s); i++ {
			xs = append(xs, fmt.Sprint(s[i]))
		}
		return p.golf("OfBytes", p.sliceOf(elem, "[]int{"+strings.Join(xs, ", ")+"}", len(xs)))
	}
	p.noteLiteral(s)
	return p.golf("Const", p.quote(s), fmt.Sprint(len(s)))
}

// noteLiteral notes a constant whose bytes may be asked for.
func (p *prog) noteLiteral(s string) {
	if !p.literals[s] {
		p.literals[s] = true
		p.litList = append(p.litList, s)
	}
}

// literalBytes writes the function that has the bytes of each constant.
func (p *prog) literalBytes() {
	if !p.usesBytes {
		return
	}
	elem := types.Typ[types.Byte]
	b := &p.decls
	b.add(0, "func golf_litBytes(l string) %s {", p.lt(types.NewSlice(elem)))
	sort.Strings(p.litList)
	for _, s := range p.litList {
		var xs []string
		for i := 0; i < len(s); i++ {
			xs = append(xs, fmt.Sprint(s[i]))
		}
		b.add(0, "if l == %s {", quoted(s))
		b.add(0, "return %s", p.sliceOf(elem, "[]int{"+strings.Join(xs, ", ")+"}", len(xs)))
		b.add(0, "}")
	}
	b.add(0, "return nil")
	b.add(0, "}")
}

// textSlice is s[lo:hi] of a string.
func (f *fctx) textSlice(e *ast.SliceExpr) string {
	p := f.p
	bound := func(b ast.Expr, none string) func() string {
		return func() string {
			if b == nil {
				return none
			}
			return f.expr(b)
		}
	}
	xs := f.ordered(func() string { return f.expr(e.X) }, bound(e.Low, "0"), bound(e.High, "-1"))
	if f.unwinds() && f.user() {
		f.pinBounds(e, xs)
		length := p.golf("Len", xs[0])
		f.sliceBounds(e, xs, length, length, "length")
	}
	if e.High != nil && p.Info.Types[e.High].Value == nil {
		xs[2] = p.golf("Bound", xs[2])
	}
	return p.golf("Part", xs...)
}

// textConversion is string(x), []byte(s) or []rune(s); "" if it is none of these.
func (f *fctx) textConversion(a ast.Expr, from, to types.Type) string {
	p := f.p
	elem := func(t types.Type) types.BasicKind {
		if s, ok := under(t).(*types.Slice); ok {
			if b, ok := under(s.Elem()).(*types.Basic); ok {
				return b.Kind()
			}
		}
		return types.Invalid
	}
	switch {
	case isString(to) && isString(from):
		return f.expr(a)
	case isString(to):
		name := ""
		switch elem(from) {
		case types.Uint8:
			name = "OfSlice"
		case types.Int32:
			name = "OfRunes"
		default:
			if b, ok := under(from).(*types.Basic); ok && b.Info()&types.IsInteger != 0 {
				name = "OfRune"
			}
		}
		if name != "" {
			return p.golf(name, f.expr(a))
		}
	case isString(from) && elem(to) == types.Uint8:
		return p.golf("Copy", f.expr(a))
	case isString(from) && elem(to) == types.Int32:
		return p.golf("Runes", f.expr(a))
	}
	return ""
}

// needsTexts: the user's files make strings at run time.
func (p *prog) needsTexts() bool {
	n := &textFinder{p: p, fine: map[ast.Node]bool{}}
	for _, k := range p.List {
		for _, f := range k.Files {
			if k.User {
				ast.Inspect(f, n.visit)
			}
		}
	}
	return n.found || p.opt.Tests
}

// textFinder looks for what makes a string at run time.
type textFinder struct {
	p     *prog
	fine  map[ast.Node]bool // calls whose string nobody sees, or that only ask whether a string is empty
	found bool
}

func (n *textFinder) visit(node ast.Node) bool {
	info := n.p.Info
	dynamic := func(e ast.Expr) bool {
		tv := info.Types[e]
		return tv.Type != nil && tv.Value == nil && (isString(tv.Type) || isParam(tv.Type))
	}
	switch e := node.(type) {
	case *ast.ImportSpec:
		path := strings.Trim(e.Path.Value, `"`)
		if p := n.p.Loaded(path); p != nil && !p.User && !plainPackages[path] {
			n.found = true // its functions may make strings
		}
	case *ast.BinaryExpr:
		switch e.Op {
		case token.ADD, token.LSS, token.LEQ, token.GTR, token.GEQ:
			n.found = n.found || dynamic(e.X) || dynamic(e.Y)
		}
		if c, ok := ast.Unparen(e.X).(*ast.CallExpr); ok && isZero(info.Types[e.Y]) &&
			(e.Op == token.EQL || e.Op == token.NEQ || e.Op == token.GTR) {
			if id, ok := c.Fun.(*ast.Ident); ok && id.Name == "len" {
				n.fine[c] = true
			}
		}
	case *ast.AssignStmt:
		if e.Tok == token.ADD_ASSIGN && dynamic(e.Lhs[0]) {
			n.found = true
		}
	case *ast.IndexExpr:
		n.found = n.found || info.Types[e.X].IsValue() && isString(info.Types[e.X].Type)
	case *ast.SliceExpr:
		n.found = n.found || isString(info.Types[e.X].Type)
	case *ast.RangeStmt:
		n.found = n.found || isString(info.Types[e.X].Type)
	case *ast.ExprStmt:
		if c, ok := ast.Unparen(e.X).(*ast.CallExpr); ok {
			switch n.p.calleeName(c) {
			case "fmt.Sprintf", "fmt.Sprint", "fmt.Sprintln", "fmt.Errorf":
				n.fine[c] = true
			}
		}
	case *ast.CallExpr:
		n.found = n.found || !n.fine[e] && n.call(e)
	}
	return !n.found
}

func isZero(tv types.TypeAndValue) bool {
	return tv.Value != nil && tv.Value.Kind() == constant.Int && constant.Sign(tv.Value) == 0
}

// call: the call makes or needs a string that is made at run time.
func (n *textFinder) call(c *ast.CallExpr) bool {
	p := n.p
	info := p.Info
	if tv := info.Types[c.Fun]; tv.IsType() && len(c.Args) == 1 {
		from, to := info.TypeOf(c.Args[0]), tv.Type
		return info.Types[c].Value == nil && isString(to) != isString(from) && (isString(to) || isString(from)) && !isIface(to)
	}
	if id, ok := ast.Unparen(c.Fun).(*ast.Ident); ok {
		if b, ok := info.Uses[id].(*types.Builtin); ok {
			switch b.Name() {
			case "len":
				return isString(info.TypeOf(c.Args[0])) && info.Types[c].Value == nil
			case "print", "println":
				return true
			case "panic":
				t := info.TypeOf(c.Args[0])
				return !isString(t) && !types.Identical(t, errorType)
			case "copy", "append":
				return len(c.Args) == 2 && isString(info.TypeOf(c.Args[1])) && c.Ellipsis.IsValid()
			case "min", "max":
				return isString(info.TypeOf(c.Args[0]))
			}
			return false
		}
	}
	switch p.calleeName(c) {
	case "fmt.Println", "fmt.Print":
		for _, a := range c.Args {
			if !allDirect(info.TypeOf(a)) {
				return true
			}
		}
		return c.Ellipsis.IsValid()
	case "fmt.Printf":
		return !p.directFormat(c)
	case "fmt.Errorf":
		return len(c.Args) > 1 || info.Types[c.Args[0]].Value == nil
	case "fmt.Sprintf", "fmt.Sprint", "fmt.Sprintln", "fmt.Fprintf", "fmt.Fprint", "fmt.Fprintln",
		"(time.Duration).String", "errors.Join":
		return true
	}
	return false
}

// calleeName is the full name of the function that a call names.
func (p *prog) calleeName(c *ast.CallExpr) string { return analyse.CalleeName(p.Info, c) }

// allDirect: Println of the subset writes a value of this type, or each of several results.
func allDirect(t types.Type) bool {
	tup, ok := t.(*types.Tuple)
	if !ok {
		return direct(t, 'v')
	}
	for i := 0; i < tup.Len(); i++ {
		if !direct(tup.At(i).Type(), 'v') {
			return false
		}
	}
	return true
}

// plainPackages are those whose functions, but for what textFinder knows, make no strings that a file sees.
var plainPackages = map[string]bool{
	"fmt": true, "sync": true, "sync/atomic": true, "time": true, "errors": true, "os": true, "runtime": true,
	"runtime/pprof": true, "context": true, "sort": true, "math/rand": true, "io": true, "unsafe": true, "slices": true,
	"maps": true, "cmp": true, "iter": true, "container/list": true, "container/heap": true, "net": true, "math": true,
}
