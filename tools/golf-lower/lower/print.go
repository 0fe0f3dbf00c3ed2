package lower

import (
	"fmt"
	"go/ast"
	"go/constant"
	"go/types"
	"strings"

	"golflower/load"
)

// printParts are the pieces that a call prints, and the function of _std/golf that writes them; false if the call prints
// nothing.
func (f *fctx) printParts(c *ast.CallExpr) (pieces []piece, to string, ok bool) {
	p := f.p
	switch b := p.isBuiltin(c); b {
	case "print", "println":
		f.early(c.Args...)
		return f.builtinPieces(b, c), "WriteErr", true
	}
	name, isFmt := strings.CutPrefix(p.calleeName(c), "fmt.")
	if !isFmt {
		return nil, "", false
	}
	to, first := "Write", 0
	if strings.HasPrefix(name, "Fprint") {
		if !f.isFile(c.Args[0]) {
			return nil, "", false
		}
		to, first = f.writer(c.Args[0]), 1
		name = "Print" + strings.TrimPrefix(name, "Fprint")
	}
	f.early(c.Args[first:]...)
	switch name {
	case "Println", "Print":
		return f.printedPieces(name, c, first), to, true
	case "Printf":
		return f.formatPieces(c, first), to, true
	}
	return nil, "", false
}

// printedPieces are the pieces of Println and Print, also of a slice of operands.
func (f *fctx) printedPieces(name string, c *ast.CallExpr, first int) []piece {
	if !c.Ellipsis.IsValid() && !(name == "Print" && f.openOperands(c.Args[first:])) {
		return f.printPieces(name, c.Args[first:])
	}
	pieces := []piece{f.runtimePrint(c, name == "Println")}
	if name == "Println" {
		pieces = append(pieces, piece{lit: "\n", isLit: true})
	}
	return pieces
}

// openOperands: whether Print puts a space between the operands depends on what an interface among them holds.
func (f *fctx) openOperands(args []ast.Expr) bool {
	if len(args) == 1 {
		tup, ok := f.typeOf(args[0]).(*types.Tuple)
		for i := 0; ok && i < tup.Len(); i++ {
			if tup.Len() > 1 && isIface(tup.At(i).Type()) {
				return true
			}
		}
		return false
	}
	for _, a := range args {
		if isIface(f.typeOf(a)) {
			return true
		}
	}
	return false
}

// printStmt is a call that prints, as a statement; false if the call prints nothing.
func (f *fctx) printStmt(c *ast.CallExpr) bool {
	pieces, to, ok := f.printParts(c)
	if ok {
		f.hold(pieces, to)
	}
	return ok
}

// isFile: the writer is os.Stdout or os.Stderr.
func (f *fctx) isFile(e ast.Expr) bool {
	s, ok := ast.Unparen(e).(*ast.SelectorExpr)
	if !ok {
		return false
	}
	v, ok := f.p.Info.Uses[s.Sel].(*types.Var)
	return ok && v.Pkg() != nil && v.Pkg().Path() == "os" && (v.Name() == "Stdout" || v.Name() == "Stderr")
}

// writer is the function of _std/golf that writes to a file.
func (f *fctx) writer(e ast.Expr) string {
	if s, ok := ast.Unparen(e).(*ast.SelectorExpr); ok {
		if v, ok := f.p.Info.Uses[s.Sel].(*types.Var); ok && v.Pkg() != nil && v.Pkg().Path() == "os" {
			switch v.Name() {
			case "Stdout":
				return "Write"
			case "Stderr":
				return "WriteErr"
			}
		}
	}
	f.p.refuse("printing to something else than os.Stdout and os.Stderr")
	return ""
}

// builtinPieces are the pieces of print and println.
func (f *fctx) builtinPieces(name string, c *ast.CallExpr) []piece {
	p := f.p
	xs, ts, vs := f.printOperands(c.Args)
	var r []piece
	for i, x := range xs {
		if i > 0 && name == "println" {
			r = append(r, piece{lit: " ", isLit: true})
		}
		t := types.Default(ts[i])
		if b, ok := under(t).(*types.Basic); ok && b.Info()&(types.IsInteger|types.IsBoolean|types.IsString) != 0 {
			r = append(r, p.pieceOf(x, types.Default(under(t)), vs[i], plain('v')))
		} else {
			r = append(r, piece{text: p.printed(x, t)})
		}
	}
	if name == "println" {
		r = append(r, piece{lit: "\n", isLit: true})
	}
	return r
}

// printed is the text that print has for a value that is no integer, truth value or string. An address that is not nil ends
// the program.
func (p *prog) printed(x string, t types.Type) string {
	if b, ok := under(t).(*types.Basic); ok && b.Kind() != types.UnsafePointer {
		if b.Info()&types.IsFloat == 0 || !load.Since("go1.27") { // an older Go writes floats in another way
			p.refuse("print of a value of type %s", t)
		}
		return p.formatFloat(x, t, b, plain('v'))
	}
	none := "0x0"
	switch under(t).(type) {
	case *types.Interface:
		none = "(0x0,0x0)"
	case *types.Slice:
		none = "[0/0]0x0"
	case *types.Pointer, *types.Chan, *types.Map, *types.Signature:
	default:
		p.refuse("print of a value of type %s", t)
	}
	l := p.lt(t)
	fn := p.aux("print", none+" "+l, func(name string, b *buffer) {
		b.add(0, "func %s(x %s) *%s {", name, l, p.structName(p.textType()))
		b.add(0, "if x != nil {")
		b.add(0, "panic(\"lowering: printing an address is not supported\")")
		b.add(0, "}")
		b.add(0, "return %s", p.textConst(none))
		b.add(0, "}")
	})
	return fmt.Sprintf("%s(%s)", fn, x)
}

// hold writes pieces. If other goroutines write in parts, nothing comes between the parts of a line.
func (f *fctx) hold(pieces []piece, to string) {
	p := f.p
	if to == "Write" {
		if ops, _, ok := p.operands(pieces); ok {
			p.imports["fmt"] = true
			held := p.texts && p.HasGo && !load.IsStandard(p.Fset.Position(p.pos).Filename)
			if held {
				for i := range ops {
					ops[i] = f.pin(ops[i])
				}
				f.emit("%s", p.golf("Hold"))
			}
			f.emit("fmt.Println(%s)", strings.Join(ops, ", "))
			if held {
				f.emit("%s", p.golf("Release"))
			}
			return
		}
	}
	f.emit("%s", p.golf(to, p.textOfPieces(pieces)))
}

// printCall is a call that prints, as a call of one function: its operands are evaluated now.
func (f *fctx) printCall(c *ast.CallExpr) string {
	p := f.p
	p.imports["fmt"] = true
	pieces, to, _ := f.printParts(c)
	ops, ts, ok := p.operands(pieces)
	if !ok || p.texts {
		return p.golf(to, p.textOfPieces(pieces))
	}
	var ps, as, given []string
	for i, op := range ops {
		if op == `"`+tie+`"` {
			as = append(as, op)
			continue
		}
		a := fmt.Sprintf("a%d", i)
		ps = append(ps, a+" "+p.lt(types.Default(ts[i])))
		as = append(as, a)
		given = append(given, op)
	}
	w := p.aux("println", strings.Join(ps, ",")+strings.Join(as, ","), func(name string, b *buffer) {
		b.add(0, "func %s(%s) {", name, strings.Join(ps, ", "))
		b.add(0, "fmt.Println(%s)", strings.Join(as, ", "))
		b.add(0, "}")
	})
	return fmt.Sprintf("%s(%s)", w, strings.Join(given, ", "))
}

// goCall is a call that may stand after go or defer: its operands are evaluated now.
func (f *fctx) goCall(c *ast.CallExpr) string {
	p := f.p
	if b := p.isBuiltin(c); b != "" {
		switch b {
		case "close", "delete", "clear", "copy":
			return f.builtin(b, c)
		case "panic":
			return f.panicCall(c.Args[0])
		case "print", "println":
			return f.printCall(c)
		}
		if b == "recover" {
			// recover does nothing if it is deferred itself
			return p.nothingCall()
		}
		p.refuse("%s after go or defer", b)
	}
	switch p.calleeName(c) {
	case "fmt.Println", "fmt.Print", "fmt.Printf", "fmt.Fprintln", "fmt.Fprint", "fmt.Fprintf":
		if f.printsNow(c) {
			return f.printCall(c)
		}
	case "fmt.Sprintln", "fmt.Sprint", "fmt.Sprintf", "fmt.Errorf": // nobody sees the text
		for _, a := range c.Args {
			f.discard(f.expr(a))
		}
		return p.nothingCall()
	case "runtime.GC":
		return p.collector() + "()"
	case "runtime.Goexit":
		p.need(&p.unwind)
		return "golf_goexit()"
	}
	return f.callText(c)
}

// nothingCall is the call of a function that does nothing.
func (p *prog) nothingCall() string {
	return p.aux("golf", "nothing", func(name string, b *buffer) {
		b.add(0, "func %s() {", name)
		b.add(0, "}")
	}) + "()"
}

// printsNow: a call after go or defer prints to a file, and the text of its operands is the same before it and when it runs.
func (f *fctx) printsNow(c *ast.CallExpr) bool {
	args := c.Args
	if strings.HasPrefix(f.p.calleeName(c), "fmt.Fprint") {
		if !f.isFile(args[0]) {
			return false
		}
		args = args[1:]
	}
	for _, a := range args {
		if f.p.Info.Types[a].Value == nil && !settled(f.typeOf(a)) {
			return false
		}
	}
	return !c.Ellipsis.IsValid()
}

// settled: the text of a value of the type is that of the value alone, and no method makes it.
func settled(t types.Type) bool {
	if hasTextMethod(t) != "" {
		return false
	}
	switch u := under(t).(type) {
	case *types.Basic:
		return true
	case *types.Array:
		return settled(u.Elem())
	case *types.Struct:
		for i := range u.NumFields() {
			if !settled(u.Field(i).Type()) {
				return false
			}
		}
		return true
	}
	return false
}

// panicCall is panic as a call of one function.
func (f *fctx) panicCall(a ast.Expr) string {
	p := f.p
	if f.unwinds() {
		return fmt.Sprintf("golf_raise(%s, %d)", f.panicValue(a), f.site())
	}
	text, made := f.panicText(a)
	if made {
		return p.golf("Panic", text)
	}
	fn := p.aux("golf", "panic", func(name string, b *buffer) {
		b.add(0, "func %s(s string) {", name)
		b.add(0, "panic(s)")
		b.add(0, "}")
	})
	return fmt.Sprintf("%s(%s)", fn, text)
}

// panicText is what a panic tells; true if it is a text that is made at run time.
func (f *fctx) panicText(a ast.Expr) (string, bool) {
	p := f.p
	t := f.typeOf(a)
	if v := p.Info.Types[a].Value; v != nil && isString(t) {
		return p.quote(constant.StringVal(v)), false
	}
	if isLit(t) {
		return f.expr(a), false
	}
	if isNil(p, a) {
		return quoted(panicNil()), false
	}
	if p.texts {
		return p.told(f.expr(a), types.Default(t)), true
	}
	switch {
	case types.Identical(t, errorType):
		return fmt.Sprintf("%s(%s)", p.dispatcherOf(errorMethod).name, f.expr(a)), false
	case types.Identical(t, types.Typ[types.String]):
		return f.expr(a), false
	}
	p.refuse("panic with a value of type %s", t)
	return "", false
}

// panicNil is the text of panic(nil).
func panicNil() string {
	if load.Since("go1.27") {
		return "runtime error: panic called with nil argument"
	}
	return "panic called with nil argument (use GODEBUG=panicnil=1 to disable)"
}

// told is the text that a panic which nobody recovers tells of its value. The word address stands for an address.
func (p *prog) told(x string, t types.Type) string {
	if isIface(t) {
		return fmt.Sprintf("%s(%s)", p.formatterOf(plain('P')).name, x)
	}
	if name := hasTextMethod(t); name != "" {
		return p.textMethod(x, t, name)
	}
	b, ok := under(t).(*types.Basic)
	if !ok || b.Kind() == types.UnsafePointer {
		return p.textConst("(" + typeText(t) + ") address")
	}
	before, behind := typeText(t)+"(", ")"
	text := ""
	switch info := b.Info(); {
	case info&types.IsString != 0:
		before, behind, text = before+`"`, `")`, x
	case info&types.IsFloat != 0:
		text = p.printed(x, t)
	default:
		text = p.formatBasic(x, b, b, plain('v'))
	}
	if _, named := types.Unalias(t).(*types.Named); !named {
		return text
	}
	return p.golf("Join", p.golf("Join", p.textConst(before), text), p.textConst(behind))
}

// panicValue is the value of a panic in an interface.
func (f *fctx) panicValue(a ast.Expr) string {
	f.p.usesAny = true
	if isNil(f.p, a) {
		return "nil"
	}
	return f.rval(a, types.NewInterfaceType(nil, nil))
}
