package lower

import (
	"fmt"
	"go/ast"
	"go/constant"
	"go/types"
	"strings"

	"golflower/load"
)

// valueVerbs are the functions of _std/fmt that make the text of an interface by one verb; K tells strings from others.
var valueVerbs = map[string]*verb{
	"fmt.formatV": plain('v'), "fmt.formatPlusV": {char: 'v', plus: true, prec: -1}, "fmt.formatD": plain('d'),
	"fmt.formatS": plain('s'), "fmt.formatT": plain('t'), "fmt.formatQ": plain('q'), "fmt.formatX": plain('x'),
	"fmt.formatC": plain('c'), "fmt.formatType": plain('T'), "internal/reflectlite.typeName": plain('T'), "fmt.kind": plain('K'),
}

// intrinsic are the functions of _std that are of the subset, or need a form of their own.
func (f *fctx) intrinsic(fn *types.Func, c *ast.CallExpr) (string, bool) {
	p := f.p
	if v := valueVerbs[fn.FullName()]; v != nil {
		p.need(&p.texts)
		return fmt.Sprintf("%s(%s)", p.formatterOf(v).name, f.expr(c.Args[0])), true
	}
	if what := p.lacks(fn); what != "" && f.user() {
		p.need(&p.texts)
		f.emit("if true {")
		f.emit("%s", p.golf("Say", p.textConst("lowering: "+what)))
		f.emit("panic(%s)", quoted(tie))
		f.emit("}")
		return "", false
	}
	if fn.Name() == "unsupported" && load.IsStandard(p.Fset.Position(fn.Pos()).Filename) {
		return p.golf("Unsupported", f.expr(c.Args[0])), true
	}
	switch name := fn.FullName(); name {
	case "fmt.Sprintf":
		return p.textOfPieces(f.formatPieces(c, 0)), true
	case "fmt.Sprint":
		return p.textOfPieces(f.printedPieces("Print", c, 0)), true
	case "fmt.Sprintln":
		return p.textOfPieces(f.printedPieces("Println", c, 0)), true
	case "fmt.pad":
		return p.golf("Pad", f.args(fn.Signature(), c)...), true
	case "fmt.Errorf":
		return f.errorf(c), true
	case "sort.Slice":
		return f.sortSlice(c, "slice"), true
	case "sort.SliceStable":
		return f.sortSlice(c, "sliceStable"), true
	case "errors.As":
		return f.errorsAs(c), true
	case "errors.isComparable":
		return fmt.Sprintf("%s(%s)", p.comparableTest(), f.expr(c.Args[0])), true
	case "sort.SliceIsSorted":
		return f.sortSlice(c, "sliceIsSorted"), true
	case "time.loose":
		p.timed = true
		if !p.opt.Loose {
			p.need(&p.clock)
		}
		return fmt.Sprint(p.opt.Loose), true
	case "time.quiet":
		if p.opt.Loose { // it is not reached, and golf_quiet is not there
			return p.stdFunc("time", "round") + "()", true
		}
		return "golf_quiet()", true
	case "testing.Short":
		return fmt.Sprint(p.opt.Short), true
	case "time.AfterFunc":
		if f.user() {
			return f.afterFunc(fn, c), true
		}
	case "time.launch":
		return fmt.Sprintf("%s(%s)", p.launch(), strings.Join(f.args(fn.Signature(), c), ", ")), true
	case "os.write":
		return p.golf("Write", f.expr(c.Args[0])), true
	case "os.writeErr":
		return p.golf("WriteErr", f.expr(c.Args[0])), true
	case "math.Float64bits", "math.Float32bits", "math.Float64frombits", "math.Float32frombits":
		return f.expr(c.Args[0]), true
	case "reflect.DeepEqual":
		any := types.NewInterfaceType(nil, nil)
		xs := f.ordered(func() string { return f.rval(c.Args[0], any) }, func() string { return f.rval(c.Args[1], any) })
		return fmt.Sprintf("%s(%s, %s)", p.deepAny().name, xs[0], xs[1]), true
	case "strconv.Itoa":
		return p.golf("Itoa", f.expr(c.Args[0])), true
	case "golf.array":
		return p.bytesArray(f.expr(c.Args[0])), true
	case "golf.offset":
		return p.bytesOffset(f.expr(c.Args[0])), true
	case "golf.litBytes":
		p.usesBytes = true
		return fmt.Sprintf("golf_litBytes(%s)", f.expr(c.Args[0])), true
	case "runtime.panicNil":
		return p.textConst(panicNil()), true
	case "runtime.GC":
		p.imports["runtime"] = true
		return "runtime.GC()", true
	case "sync.NewCond":
		if p.GenericCond {
			return p.condNew(f.rval(c.Args[0], fn.Signature().Params().At(0).Type())), true
		}
		p.imports["sync"] = true
		return fmt.Sprintf("sync.NewCond(%s)", f.expr(c.Args[0])), true
	case "net.DialUDP":
		if !isNil(p, c.Args[2]) {
			p.refuse("net.DialUDP with an address")
		}
	case "(sync.Locker).Lock", "(sync.Locker).Unlock":
		// c.L of a condition on a *sync.Mutex
		sel := ast.Unparen(c.Fun).(*ast.SelectorExpr)
		if s, ok := ast.Unparen(sel.X).(*ast.SelectorExpr); ok && !p.GenericCond && native(deref(f.typeOf(s.X))) == "sync.Cond" {
			return fmt.Sprintf("%s.L.%s()", f.expr(s.X), fn.Name()), true
		}
	}
	return "", false
}

// lacks is what a function of _std that begins with unsupported("..") does not support, or "".
func (p *prog) lacks(fn *types.Func) string {
	fd := p.bodies[fn.Origin()]
	if fd == nil || fd.Body == nil || len(fd.Body.List) == 0 || !load.IsStandard(p.Fset.Position(fd.Pos()).Filename) {
		return ""
	}
	s, ok := fd.Body.List[0].(*ast.ExprStmt)
	if !ok {
		return ""
	}
	c, ok := s.X.(*ast.CallExpr)
	if !ok || len(c.Args) != 1 || p.calleeName(c) != fn.Pkg().Path()+".unsupported" {
		return ""
	}
	v := p.Info.Types[c.Args[0]].Value
	if v == nil {
		return ""
	}
	return constant.StringVal(v)
}

// errorf is fmt.Errorf; %w keeps the error inside.
func (f *fctx) errorf(c *ast.CallExpr) string {
	p := f.p
	v := p.Info.Types[c.Args[0]].Value
	if v == nil || c.Ellipsis.IsValid() {
		return f.runtimeFormat("errorf", c, 0)
	}
	if len(c.Args) == 1 {
		parts, wrong := parseFormat(constant.StringVal(v))
		if wrong != "" {
			p.refuse("%s in fmt.Errorf", wrong)
		}
		s := ""
		for _, x := range parts {
			if x.verb != nil {
				p.refuse("fmt.Errorf with too few operands")
			}
			s += x.lit
		}
		return fmt.Sprintf("%s(%s)", p.stdFunc("errors", "New"), p.constant(constant.MakeString(s), types.Typ[types.String]))
	}
	wrapped := -1
	parts, _ := parseFormat(constant.StringVal(v))
	for _, x := range parts {
		if x.verb != nil && x.verb.char == 'w' {
			if wrapped >= 0 {
				p.refuse("fmt.Errorf with two errors inside")
			}
			wrapped = x.arg
		}
	}
	if wrapped < 0 || wrapped+1 >= len(c.Args) {
		return fmt.Sprintf("%s(%s)", p.stdFunc("errors", "New"), p.textOfPieces(f.formatPieces(c, 0)))
	}
	// the error is evaluated once, in its place
	var inner string
	f.wrapped = &inner
	text := p.textOfPieces(f.formatPieces(c, 0))
	f.wrapped = nil
	return fmt.Sprintf("%s(%s, %s)", p.stdFunc("fmt", "wrap"), text, inner)
}

// sortSlice is sort.Slice, or another function of its kind, of a slice whose type is known.
func (f *fctx) sortSlice(c *ast.CallExpr, name string) string {
	p := f.p
	s, ok := under(f.typeOf(c.Args[0])).(*types.Slice)
	if !ok {
		p.refuse("sort.Slice of a value of type %s", f.typeOf(c.Args[0]))
	}
	fn := p.Loaded("sort").Types.Scope().Lookup(name).(*types.Func)
	less := p.callee(c).Signature().Params().At(1).Type()
	xs := f.ordered(func() string { return f.expr(c.Args[0]) }, func() string { return f.rval(c.Args[1], less) })
	return fmt.Sprintf("%s(%s, %s)", p.funcRef(fn, []types.Type{s.Elem()}), xs[0], xs[1])
}

// asType is the type of errors that decide themselves what errors.As finds, asMethod its method.
var (
	asType   = interfaceOf("As", types.Universe.Lookup("any").Type(), types.Typ[types.Bool])
	asMethod = asType.Method(0)
)

// interfaceOf is an interface with one method.
func interfaceOf(name string, param, result types.Type) *types.Interface {
	params := types.NewTuple(types.NewParam(0, nil, "", param))
	results := types.NewTuple(types.NewParam(0, nil, "", result))
	sig := types.NewSignatureType(nil, nil, nil, params, results, false)
	return types.NewInterfaceType([]*types.Func{types.NewFunc(0, nil, name, sig)}, nil).Complete()
}

// comparableTest is the function that says whether what an interface holds can be compared.
func (p *prog) comparableTest() string {
	if p.comparable == "" {
		p.usesAny = true
		p.comparable = p.fresh("golf_comparable")
	}
	return p.comparable
}

// comparableTable writes the function.
func (p *prog) comparableTable() {
	if p.comparable == "" {
		return
	}
	b := &p.decls
	b.add(0, "func %s(x *golf_any) bool {", p.comparable)
	for _, d := range p.dynList {
		if !types.Comparable(d.t) {
			b.add(0, "if x.tag == %d {", d.tag)
			b.add(0, "return false")
			b.add(0, "}")
		}
	}
	b.add(0, "return true")
	b.add(0, "}")
}

// errorsAs is errors.As: the variable that the second operand points to has a type that is known.
func (f *fctx) errorsAs(c *ast.CallExpr) string {
	p := f.p
	pt, ok := under(f.typeOf(c.Args[1])).(*types.Pointer)
	if !ok {
		p.refuse("errors.As with this operand")
	}
	t := pt.Elem()
	xs := f.ordered(func() string { return f.rval(c.Args[0], errorType) }, func() string { return f.expr(c.Args[1]) })
	fn := p.aux("as", "error "+typeKey(t), func(name string, b *buffer) {
		inside := p.stdFunc("errors", "inside")
		errs := types.NewSlice(errorType)
		v := "err"
		if !isIface(t) {
			v = p.copyOf(t, "err."+p.dynOf(t).field())
		}
		set := "to.v = " + v
		if isRef(t) {
			set = p.set(t, "to", v)
		}
		b.add(0, "func %s(err *golf_any, to %s) bool {", name, p.lt(pt))
		b.add(0, "if err == nil {")
		b.add(0, "return false")
		b.add(0, "}")
		b.add(0, "if %s {", p.holds("err", t))
		b.add(0, "%s", set)
		b.add(0, "return true")
		b.add(0, "}")
		b.add(0, "if %s(err) && %s(err, %s) {", p.testOf(asType).name, p.dispatcherOf(asMethod).name, p.toIface("to", pt))
		b.add(0, "return true")
		b.add(0, "}")
		b.add(0, "list := %s(err)", inside)
		b.add(0, "for i := 0; i < %s; i++ {", p.sliceLen(errs.Elem(), "list"))
		b.add(0, "if %s(%s, to) {", name, p.at(errs.Elem(), "list", "i"))
		b.add(0, "return true")
		b.add(0, "}")
		b.add(0, "}")
		b.add(0, "return false")
		b.add(0, "}")
	})
	return fmt.Sprintf("%s(%s, %s)", fn, xs[0], xs[1])
}

// exit is os.Exit: the status is told in a line, and a fatal error ends the program without deferred calls.
func (f *fctx) exit(code string) {
	p := f.p
	p.imports["fmt"] = true
	p.imports["sync"] = true
	if p.opt.Collect {
		f.emit("%s()", p.lastCollector())
	}
	f.emit("fmt.Println(%q, %s, %q)", tie+"exit", code, tie)
	m := f.fresh("exit")
	f.emit("%s := &sync.Mutex{}", m)
	f.emit("%s.Unlock()", m)
}
