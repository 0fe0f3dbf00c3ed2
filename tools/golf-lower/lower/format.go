package lower

import (
	"fmt"
	"go/ast"
	"go/constant"
	"go/token"
	"go/types"
	"strconv"
	"strings"
)

// verb is a verb of a format with its flags.
type verb struct {
	char  byte
	plus  bool
	minus bool
	sharp bool
	space bool
	zero  bool
	width int
	prec  int // -1: none
}

// plain is a verb without flags.
func plain(char byte) *verb { return &verb{char: char, prec: -1} }

// flagged: the verb has a flag, a width or a precision.
func (v *verb) flagged() bool { return *v != verb{char: v.char, prec: -1} }

// part is a part of a format: a text, or a verb with its operand.
type part struct {
	lit  string
	verb *verb
	arg  int
}

// parseFormat takes a format apart; what is wrong with it is a text.
func parseFormat(s string) ([]part, string) {
	var parts []part
	arg := 0
	for s != "" {
		i := strings.IndexByte(s, '%')
		if i < 0 {
			return append(parts, part{lit: s}), ""
		}
		if i > 0 {
			parts = append(parts, part{lit: s[:i]})
		}
		v, rest := parseVerb(s[i+1:])
		s = rest
		switch {
		case v.char == 0:
			return nil, "a format that ends in a verb"
		case v.char == '%':
			parts = append(parts, part{lit: "%"})
		case strings.IndexByte("dsvtqxXcbowTfegU", v.char) < 0:
			return nil, "the verb %" + string(v.char)
		case v.plus && v.char == 'q':
			return nil, "the verb %+q"
		case v.sharp && strings.IndexByte("xXobU", v.char) < 0:
			return nil, "the verb %#" + string(v.char)
		case v.prec >= 0 && strings.IndexByte("fegdsvqxX", v.char) < 0:
			return nil, "a precision of %" + string(v.char)
		default:
			parts = append(parts, part{verb: v, arg: arg})
			arg++
		}
	}
	return parts, ""
}

// parseVerb reads the flags and the letter of a verb.
func parseVerb(s string) (*verb, string) {
	v := &verb{prec: -1}
	for s != "" && strings.IndexByte("+-#0 ", s[0]) >= 0 {
		v.plus = v.plus || s[0] == '+'
		v.minus = v.minus || s[0] == '-'
		v.sharp = v.sharp || s[0] == '#'
		v.space = v.space || s[0] == ' '
		v.zero = v.zero || s[0] == '0'
		s = s[1:]
	}
	v.width, s = leadingNumber(s)
	if s != "" && s[0] == '.' {
		v.prec, s = leadingNumber(s[1:])
	}
	if s != "" {
		v.char, s = s[0], s[1:]
	}
	return v, s
}

// leadingNumber is the number with which a text begins, 0 if there is none.
func leadingNumber(s string) (int, string) {
	n := 0
	for n < len(s) && s[n] >= '0' && s[n] <= '9' {
		n++
	}
	x, _ := strconv.Atoi(s[:n])
	return x, s[n:]
}

// direct: Println of the subset writes a value of this type as the verb does.
func direct(t types.Type, char byte) bool {
	if isParam(t) || isLit(t) {
		return isLit(t)
	}
	if types.Identical(t, errorType) {
		return char == 'v' || char == 's'
	}
	b, ok := under(t).(*types.Basic)
	if !ok || hasTextMethod(t) != "" {
		return false
	}
	switch info := b.Info(); {
	case isWide(t):
		return false
	case info&types.IsInteger != 0:
		return char == 'v' || char == 'd'
	case info&types.IsBoolean != 0:
		return char == 'v' || char == 't'
	case info&types.IsString != 0:
		return char == 'v' || char == 's'
	}
	return b.Kind() == types.UntypedNil && char == 'v'
}

// hasTextMethod is the name of the method that fmt asks for the text of a value.
func hasTextMethod(t types.Type) string {
	ms := types.NewMethodSet(t)
	for _, name := range []string{"Error", "String"} {
		sel := ms.Lookup(nil, name)
		if sel == nil {
			continue
		}
		sig := sel.Obj().(*types.Func).Signature()
		if sig.Params().Len() == 0 && sig.Results().Len() == 1 && types.Identical(sig.Results().At(0).Type(), types.Typ[types.String]) {
			return name
		}
	}
	return ""
}

// directFormat: Println of the subset can write the line of this Printf.
func (p *prog) directFormat(c *ast.CallExpr) bool {
	v := p.Info.Types[c.Args[0]].Value
	if v == nil || c.Ellipsis.IsValid() {
		return false
	}
	parts, wrong := parseFormat(constant.StringVal(v))
	if wrong != "" {
		return true // refused later
	}
	for _, x := range parts {
		if x.verb == nil {
			continue
		}
		if x.verb.flagged() || x.arg+1 >= len(c.Args) || !direct(p.Info.TypeOf(c.Args[x.arg+1]), x.verb.char) {
			return false
		}
	}
	return true
}

// piece is a piece of what is printed.
type piece struct {
	lit    string // a text of the file
	isLit  bool
	direct string // an operand of Println
	typ    types.Type
	text   string // or a text that is made at run time
}

// printPieces are the pieces of Println and Print: each operand, with spaces as they put them.
func (f *fctx) printPieces(name string, args []ast.Expr) []piece {
	p := f.p
	xs, ts, vs := f.printOperands(args)
	var r []piece
	for i, x := range xs {
		if i > 0 && (name == "Println" || !isString(ts[i]) && !isString(ts[i-1])) {
			r = append(r, piece{lit: " ", isLit: true})
		}
		r = append(r, p.pieceOf(x, ts[i], vs[i], plain('v')))
	}
	if name == "Println" {
		r = append(r, piece{lit: "\n", isLit: true})
	}
	return r
}

// runtimeFormat calls a function of _std/fmt with a format and a slice of operands that are known at run time alone.
func (f *fctx) runtimeFormat(name string, c *ast.CallExpr, first int) string {
	sig := under(f.typeOf(c.Fun)).(*types.Signature)
	args := f.args(sig, c)[first:]
	return fmt.Sprintf("%s(%s)", f.p.stdFunc("fmt", name), strings.Join(args, ", "))
}

// runtimePrint is the text of a slice of operands.
func (f *fctx) runtimePrint(c *ast.CallExpr, line bool) piece {
	sig := under(f.typeOf(c.Fun)).(*types.Signature)
	args := f.args(sig, c)
	return piece{text: fmt.Sprintf("%s(%s, %v)", f.p.stdFunc("fmt", "sprint"), args[len(args)-1], line)}
}

// printOperands are the operands of Println and Print with their types and, if they are constants, values.
func (f *fctx) printOperands(args []ast.Expr) (xs []string, ts []types.Type, vs []constant.Value) {
	if len(args) == 1 {
		if tup, ok := f.typeOf(args[0]).(*types.Tuple); ok && tup.Len() > 1 {
			xs, ts = f.multi(args[0], tup.Len())
			return xs, ts, make([]constant.Value, len(xs))
		}
	}
	var gs []func() string
	for _, a := range args {
		gs = append(gs, func() string { return f.printed(a, plain('v')) })
		ts = append(ts, f.typeOf(a))
		vs = append(vs, f.p.Info.Types[a].Value)
	}
	xs = f.ordered(gs...)
	if calls(args) {
		for i := range xs {
			xs[i] = f.pinTyped(xs[i], args[i])
		}
	}
	return xs, ts, vs
}

// formatPieces are the pieces of a format with its operands.
func (f *fctx) formatPieces(c *ast.CallExpr, first int) []piece {
	p := f.p
	name := p.callee(c).Name()
	v := p.Info.Types[c.Args[first]].Value
	if v == nil || c.Ellipsis.IsValid() {
		return []piece{{text: f.runtimeFormat("sprintf", c, first)}}
	}
	parts, wrong := parseFormat(constant.StringVal(v))
	if wrong != "" {
		p.refuse("%s in fmt.%s", wrong, name)
	}
	args := c.Args[first+1:]
	verbs := make([]*verb, len(args))
	for _, x := range parts {
		if x.verb != nil {
			if x.arg >= len(args) {
				p.refuse("fmt.%s with too few operands", name)
			}
			verbs[x.arg] = x.verb
		}
	}
	var gs []func() string
	for i, a := range args {
		if verbs[i] == nil {
			p.refuse("fmt.%s with too many operands", name)
		}
		gs = append(gs, func() string { return f.printed(a, verbs[i]) })
	}
	xs := f.ordered(gs...)
	if calls(args) {
		for i := range xs {
			xs[i] = f.pinTyped(xs[i], args[i])
		}
	}
	var r []piece
	for _, x := range parts {
		if x.verb == nil {
			r = append(r, piece{lit: x.lit, isLit: true})
		} else {
			r = append(r, p.pieceOf(xs[x.arg], f.typeOf(args[x.arg]), p.Info.Types[args[x.arg]].Value, x.verb))
		}
	}
	return r
}

// printed is an operand that is printed.
func (f *fctx) printed(a ast.Expr, v *verb) string {
	if isNil(f.p, a) {
		return "nil"
	}
	f.second(a)
	if v.char == 'T' && !isIface(f.typeOf(a)) { // its type is known: it is evaluated for what it does
		if f.mayPanic(a) {
			f.discard(f.expr(a))
		}
		return "nil"
	}
	if v.char == 'w' {
		if f.wrapped == nil {
			f.p.refuse("%%w outside of fmt.Errorf")
		}
		x := f.pin(f.expr(a))
		*f.wrapped = f.convert(x, f.typeOf(a), errorType)
		return x
	}
	return f.expr(a)
}

// pieceOf is an operand as a piece.
func (p *prog) pieceOf(x string, t types.Type, value constant.Value, v *verb) piece {
	if b, ok := t.(*types.Basic); ok && b.Kind() == types.UntypedNil {
		return piece{lit: "<nil>", isLit: true}
	}
	if v.char == 'w' {
		v = plain('v')
	}
	t = types.Default(t)
	if value != nil && value.Kind() == constant.String && !v.flagged() && (v.char == 'v' || v.char == 's') && hasTextMethod(t) == "" {
		return piece{lit: constant.StringVal(value), isLit: true}
	}
	if direct(t, v.char) && !v.flagged() && !p.isText(t) && !(p.texts && types.Identical(t, errorType)) {
		if types.Identical(t, errorType) {
			return piece{direct: p.errorText(x), typ: types.Typ[types.String]}
		}
		return piece{direct: x, typ: t}
	}
	if !p.texts {
		p.refuse("printing a value of type %s", t)
	}
	return piece{text: p.formatted(x, t, v)}
}

// errorText is the text of an error, where strings are those of the subset.
func (p *prog) errorText(x string) string {
	d := p.dispatcherOf(errorMethod).name
	fn := p.aux("golf", "error text", func(name string, b *buffer) {
		b.add(0, "func %s(x *golf_any) string {", name)
		b.add(0, "if x == nil {")
		b.add(0, "return \"<nil>\"")
		b.add(0, "}")
		b.add(0, "return %s(x)", d)
		b.add(0, "}")
	})
	return fmt.Sprintf("%s(%s)", fn, x)
}

// merge joins neighbouring texts of the file.
func merge(pieces []piece) []piece {
	var r []piece
	for _, x := range pieces {
		if n := len(r) - 1; x.isLit && n >= 0 && r[n].isLit {
			r[n].lit += x.lit
		} else if !x.isLit || x.lit != "" {
			r = append(r, x)
		}
	}
	return r
}

// fewPieces is how many strings are joined one after the other, which takes fewer turns than a list of them.
const fewPieces = 8

// textOfPieces is the text that the pieces make.
func (p *prog) textOfPieces(pieces []piece) string {
	var xs []string
	for _, x := range merge(pieces) {
		switch {
		case x.isLit:
			xs = append(xs, p.textConst(x.lit))
		case x.text != "":
			xs = append(xs, x.text)
		default:
			xs = append(xs, p.formatted(x.direct, x.typ, plain('v')))
		}
	}
	switch len(xs) {
	case 0:
		return "nil"
	case 1:
		return xs[0]
	}
	if len(xs) <= fewPieces {
		joined := xs[0]
		for _, x := range xs[1:] {
			joined = p.golf("Join", joined, x)
		}
		return joined
	}
	text := "*" + p.structName(p.textType())
	return p.golf("Concat", p.sliceOf(types.NewPointer(p.textType()), "[]"+text+"{"+strings.Join(xs, ", ")+"}", len(xs)))
}

// operands are the operands of a Println of the subset that writes the pieces; false if one is made at run time.
func (p *prog) operands(pieces []piece) ([]string, []types.Type, bool) {
	pieces = merge(pieces)
	for _, x := range pieces {
		if x.text != "" || x.isLit && !quotable(x.lit) {
			return nil, nil, false
		}
	}
	newline := false
	if n := len(pieces) - 1; n >= 0 && pieces[n].isLit && strings.HasSuffix(pieces[n].lit, "\n") {
		newline = true
		pieces[n].lit = strings.TrimSuffix(pieces[n].lit, "\n")
		if pieces[n].lit == "" && n > 0 {
			pieces = pieces[:n]
		}
	}
	l := &lineMaker{}
	for i, x := range pieces {
		last := i == len(pieces)-1
		if !x.isLit {
			l.add(x.direct, x.typ)
			continue
		}
		text := x.lit
		if i > 0 && strings.HasPrefix(text, " ") {
			l.spaced = true
			text = text[1:]
			if text == "" && !last {
				continue
			}
		}
		spaced := !last && strings.HasSuffix(text, " ")
		if spaced {
			text = text[:len(text)-1]
		}
		l.add(p.quote(text), types.Typ[types.UntypedString])
		l.spaced = spaced
	}
	if !newline {
		l.add(`"`+tie+`"`, types.Typ[types.UntypedString])
		if len(l.ops) > 2 && l.ops[len(l.ops)-2] == l.ops[len(l.ops)-1] {
			l.ops, l.types = l.ops[:len(l.ops)-1], l.types[:len(l.types)-1]
		}
	}
	return l.ops, l.types, true
}

// lineMaker collects the operands of a Println: a mark between two, unless the space that Println puts is wanted.
type lineMaker struct {
	ops    []string
	types  []types.Type
	spaced bool
}

func (l *lineMaker) add(op string, t types.Type) {
	mark := `"` + tie + `"`
	if len(l.ops) > 0 && !l.spaced && op != mark {
		l.ops = append(l.ops, mark)
		l.types = append(l.types, types.Typ[types.UntypedString])
	}
	l.ops = append(l.ops, op)
	l.types = append(l.types, t)
	l.spaced = false
}

// calls: an operand behind the first one calls or receives, so that what the operands before it refer to may change.
func calls(args []ast.Expr) bool {
	found := false
	for i, a := range args {
		if i == 0 {
			continue
		}
		ast.Inspect(a, func(n ast.Node) bool {
			switch n := n.(type) {
			case *ast.FuncLit:
				return false
			case *ast.CallExpr:
				found = true
			case *ast.UnaryExpr:
				found = found || n.Op == token.ARROW
			}
			return !found
		})
	}
	return found
}

// pinTyped evaluates an operand now.
func (f *fctx) pinTyped(x string, e ast.Expr) string {
	if f.p.Info.Types[e].Value != nil || isNil(f.p, e) {
		return x
	}
	return f.pin(x)
}
