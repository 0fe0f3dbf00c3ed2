package lower

import (
	"fmt"
	"go/ast"
	"go/token"
	"go/types"
	"strings"

	"golflower/load"
)

// formatted is the text of a value by a verb.
func (p *prog) formatted(x string, t types.Type, v *verb) string {
	if v.char == 'T' {
		return p.padded(p.typeName(x, t), v)
	}
	return p.format(x, t, v, 0, true)
}

// padded brings a text to the width of a verb.
func (p *prog) padded(text string, v *verb) string {
	if v.width == 0 {
		return text
	}
	return p.golf("Pad", text, fmt.Sprint(v.width), fmt.Sprint(v.minus), fmt.Sprint(v.zero))
}

// typeName is the name of a type, as %T writes it.
func (p *prog) typeName(x string, t types.Type) string {
	if !isIface(t) {
		return p.textConst(typeText(t))
	}
	return fmt.Sprintf("%s(%s)", p.formatterOf(plain('T')).name, x)
}

// format is the text of a value: at depth 0 of the operand itself; methods: its own methods may be asked.
func (p *prog) format(x string, t types.Type, v *verb, depth int, methods bool) string {
	plain := strings.IndexByte("vsqxX", v.char) >= 0
	if isIface(t) {
		return fmt.Sprintf("%s(%s)", p.formatterAt(v, depth, methods).name, x)
	}
	if name := hasTextMethod(t); name != "" && methods && plain {
		text := p.formatString(p.askedText(x, t, name, v), v)
		if text == "" {
			p.refuse("%%%c with these flags of a value of type %s", v.char, t)
		}
		return text
	}
	switch u := under(t).(type) {
	case *types.Basic:
		return p.formatBasic(x, t, u, v)
	case *types.Pointer:
		if depth > 0 || !isRef(u.Elem()) || native(u.Elem()) != "" {
			return p.formatAddress(x, t, v)
		}
		return p.formatPointer(x, u, v)
	case *types.Chan, *types.Signature:
		return p.formatAddress(x, t, v)
	case *types.Struct:
		if isStruct(t) {
			return p.formatStruct(x, t, u, v, methods)
		}
		return p.textConst("{}")
	case *types.Slice:
		if b, ok := under(u.Elem()).(*types.Basic); ok && b.Kind() == types.Uint8 && (v.char == 's' || v.char == 'x' || v.char == 'q' || v.char == 'X') {
			return p.formatBasic(p.golf("OfSlice", x), types.Typ[types.String], types.Typ[types.String], v)
		}
		return p.formatList(x, t, u.Elem(), v, methods)
	case *types.Array:
		return p.formatList(x, t, u.Elem(), v, methods)
	case *types.Map:
		return p.formatMap(x, u, v, methods)
	}
	p.refuse("printing a value of type %s", t)
	return ""
}

// textMethod calls Error or String.
func (p *prog) textMethod(x string, t types.Type, name string) string {
	return p.callOn(x, t, textMethodOf(t, name), nil)
}

func textMethodOf(t types.Type, name string) *method {
	sel := types.NewMethodSet(t).Lookup(nil, name)
	return &method{fn: sel.Obj().(*types.Func), index: sel.Index()}
}

// askedText is what a method gives to fmt. Of a nil pointer whose method panics fmt writes <nil>; another panic of a method is
// told in the text.
func (p *prog) askedText(x string, t types.Type, name string, v *verb) string {
	if !p.unwind && !isPtr(t) && len(textMethodOf(t, name).index) == 1 {
		return p.textMethod(x, t, name)
	}
	fn := p.aux("ask", name+p.verbKey(v)+typeKey(t), func(fn string, b *buffer) {
		call := p.textMethod("x", t, name)
		b.add(0, "func %s(x %s) *%s {", fn, p.lt(t), p.structName(p.textType()))
		if isPtr(t) {
			p.askNil(b, t, name, v)
		}
		p.askEmbedded(b, t, name, v)
		b.add(0, "s := %s", call)
		if p.unwind {
			p.askRaised(b, t, name, v)
		}
		b.add(0, "return s")
		b.add(0, "}")
	})
	return fmt.Sprintf("%s(%s)", fn, x)
}

// askNil writes what fmt does with a nil pointer, unless its method is called. If the method may panic or not, and nobody can see
// which, the program ends.
func (p *prog) askNil(b *buffer, t types.Type, name string, v *verb) {
	m := textMethodOf(t, name)
	switch {
	case !isPtr(m.fn.Signature().Recv().Type()) || len(m.index) > 1:
		b.add(0, "if x == nil {")
		p.askFailed(b, name, v, p.textConst("<nil>"))
		b.add(0, "}")
	case !p.unwind && !p.takesNil(m.fn):
		b.add(0, "if x == nil {")
		b.add(0, "panic(%s)", quoted("lowering: the method "+name+" of a nil pointer in fmt is not supported"))
		b.add(0, "}")
	}
}

// askEmbedded writes what fmt does if the method is that of an embedded pointer that is nil.
func (p *prog) askEmbedded(b *buffer, t types.Type, name string, v *verb) {
	m := textMethodOf(t, name)
	x := "x"
	for k, i := range m.index {
		last := k == len(m.index)-1
		if x != "x" && isPtr(t) && (!last || !isPtr(m.fn.Signature().Recv().Type())) {
			b.add(0, "if %s == nil {", x)
			p.askFailed(b, name, v, p.textConst(panicHead(name, v)+nilText+")"))
			b.add(0, "}")
		}
		if !last {
			x, t = p.walkPath(x, t, []int{i})
		}
	}
}

// panicHead is how the text of a panic of a method begins.
func panicHead(name string, v *verb) string {
	return "%!" + string(v.char) + "(PANIC=" + name + " method: "
}

// askFailed gives what fmt writes in place of what a method gives. Flags and other verbs do not change that.
func (p *prog) askFailed(b *buffer, name string, v *verb, text string) {
	if v.flagged() || v.char != 'v' && v.char != 's' {
		b.add(0, "panic(%s)", quoted("lowering: a panic of the method "+name+" in fmt beside a flag is not supported"))
		return
	}
	b.add(0, "return %s", text)
}

// takesNil: a method does not read its receiver, or compares it with nil.
func (p *prog) takesNil(fn *types.Func) bool {
	fd := p.bodies[fn.Origin()]
	if fd == nil || fd.Body == nil {
		return true
	}
	isRecv := func(e ast.Expr) bool {
		id, ok := ast.Unparen(e).(*ast.Ident)
		return ok && len(fd.Recv.List[0].Names) == 1 && p.Info.Uses[id] == p.Info.Defs[fd.Recv.List[0].Names[0]]
	}
	reads, compares := false, false
	ast.Inspect(fd.Body, func(n ast.Node) bool {
		switch n := n.(type) {
		case *ast.Ident:
			reads = reads || isRecv(n)
		case *ast.BinaryExpr:
			compares = compares || isRecv(n.X) && isNil(p, n.Y) || isRecv(n.Y) && isNil(p, n.X)
		}
		return true
	})
	return compares || !reads
}

// askRaised writes what fmt does with a panic of a method.
func (p *prog) askRaised(b *buffer, t types.Type, name string, v *verb) {
	b.add(0, "if golf_raised() {")
	b.add(0, "if golf_g.p.exit {")
	b.add(0, "return nil")
	b.add(0, "}")
	p.usesAny = true
	b.add(0, "value := golf_g.p.value")
	b.add(0, "golf_g.p = nil")
	if isPtr(t) {
		b.add(0, "if x == nil {")
		p.askFailed(b, name, v, p.textConst("<nil>"))
		b.add(0, "}")
	}
	head := p.textConst(panicHead(name, v))
	value := p.formatterOf(plain('v')).name + "(value)"
	p.askFailed(b, name, v, p.golf("Join", p.golf("Join", head, value), p.textConst(")")))
	b.add(0, "}")
}

// formatString is the text of a string.
func (p *prog) formatString(x string, v *verb) string {
	if v.prec >= 0 {
		if v.char == 'x' || v.char == 'X' {
			return ""
		}
		x = p.golf("Cut", x, fmt.Sprint(v.prec))
	}
	switch v.char {
	case 'v', 's':
		return p.padded(x, v)
	case 'q':
		return p.padded(fmt.Sprintf("%s(%s)", p.stdFunc("strconv", "Quote"), x), v)
	case 'x', 'X':
		if !v.sharp && !v.space {
			return p.padded(p.golf("Hex", x, fmt.Sprint(v.char == 'X')), v)
		}
	}
	return ""
}

// formatBasic is the text of a number, a truth value or a string.
func (p *prog) formatBasic(x string, t types.Type, b *types.Basic, v *verb) string {
	text := ""
	switch info := b.Info(); {
	case info&types.IsString != 0:
		if p.texts && !isLit(t) {
			text = p.formatString(x, v)
		}
	case info&types.IsBoolean != 0:
		if (v.char == 'v' || v.char == 't') && v.prec < 0 {
			text = p.padded(p.golf("Bool", x), v)
		}
	case info&types.IsFloat != 0:
		text = p.formatFloat(x, t, b, v)
	case info&types.IsInteger != 0:
		text = p.formatInteger(x, t, v)
	}
	if text == "" {
		return p.wrongVerb(x, t, b, v)
	}
	return text
}

// verbsOf are the verbs that a value of a kind has.
func verbsOf(b *types.Basic) string {
	switch info := b.Info(); {
	case info&types.IsBoolean != 0:
		return "tv"
	case info&types.IsString != 0:
		return "vsxXq"
	case info&types.IsFloat != 0:
		return "vbgGxXfFeE"
	}
	return "vdboOxXcqU"
}

// wrongVerb is the text of a value with a verb that its type has not.
func (p *prog) wrongVerb(x string, t types.Type, b *types.Basic, v *verb) string {
	if !p.texts || strings.IndexByte(verbsOf(b), v.char) >= 0 || v.plus || v.sharp || v.space || b.Info()&types.IsComplex != 0 ||
		hasTextMethod(t) != "" {
		p.refuse("%%%c of a value of type %s", v.char, t)
	}
	with := *v
	with.char = 'v'
	head := p.textConst("%!" + string(v.char) + "(" + typeText(t) + "=")
	return p.golf("Join", p.golf("Join", head, p.formatBasic(x, t, b, &with)), p.textConst(")"))
}

// formatFloat is the text of a float, "" if the verb has none.
func (p *prog) formatFloat(x string, t types.Type, b *types.Basic, v *verb) string {
	size := "64"
	if b.Kind() == types.Float32 {
		x, size = p.floatConversion(x, t, types.Typ[types.Float64]), "32"
	}
	char, prec := v.char, v.prec
	switch char {
	case 'v':
		char = 'g'
	case 'f', 'e':
		if prec < 0 {
			prec = 6
		}
	case 'g':
	default:
		return ""
	}
	if v.space || v.sharp {
		return ""
	}
	text := fmt.Sprintf("%s(%s, %d, %d, %s)", p.stdFunc("strconv", "FormatFloat"), x, char, prec, size)
	if v.plus && v.char != 'v' {
		text = p.golf("WithSign", text)
	}
	return p.padded(text, v)
}

// formatInteger is the text of an integer, "" if the verb has none.
func (p *prog) formatInteger(x string, t types.Type, v *verb) string {
	base := map[byte]int{'v': 10, 'd': 10, 'x': 16, 'X': 16, 'o': 8, 'b': 2}[v.char]
	simple := !v.sharp && !v.space && v.prec < 0 && !(v.plus && base != 10)
	switch {
	case base == 0 && (v.prec >= 0 || v.space):
		return ""
	case v.char == 'c':
		return p.padded(p.golf("OfRune", x), v)
	case v.char == 'q':
		return p.padded(fmt.Sprintf("%s(%s)", p.stdFunc("strconv", "QuoteRune"), x), v)
	case v.char == 'U':
		return p.padded(p.golf("Unicode", x, fmt.Sprint(v.sharp)), v)
	case base == 0:
		return ""
	case simple && base == 10 && v.plus && v.char == 'd' && !isWide(t):
		return p.padded(p.golf("Signum", x), v)
	case simple && base == 10 && !v.plus && isWide(t):
		return p.padded(p.golf("Utoa", x), v)
	case simple && base == 10 && (!v.plus || v.char == 'v') && !isWide(t):
		return p.padded(p.golf("Itoa", x), v)
	}
	digits := "Base"
	if isWide(t) {
		digits = "WideBase"
	}
	text := p.golf(digits, x, fmt.Sprint(base), fmt.Sprint(v.char == 'X'))
	if !simple || v.plus && v.char != 'v' {
		if v.zero && v.width > 0 {
			return "" // zeros come behind the prefix
		}
		text = p.golf("Number", text, fmt.Sprint(base), fmt.Sprint(v.char == 'X'), fmt.Sprint(v.plus && v.char != 'v'), fmt.Sprint(v.space), fmt.Sprint(v.sharp), fmt.Sprint(v.prec))
	}
	return p.padded(text, v)
}

// formatPointer is &{..} of a struct, &[..] of an array.
func (p *prog) formatPointer(x string, u *types.Pointer, v *verb) string {
	l := p.lt(u)
	fn := p.aux("format", "pointer "+p.verbKey(v)+typeKey(u), func(name string, b *buffer) {
		text := p.format("x", u.Elem(), v, 1, true) // it has no methods of its own, or the pointer would have them
		b.add(0, "func %s(x %s) *%s {", name, l, p.structName(p.textType()))
		b.add(0, "if x == nil {")
		b.add(0, "return %s", p.padded(p.textConst("<nil>"), v))
		b.add(0, "}")
		b.add(0, "return %s", p.golf("Join", p.textConst("&"), text))
		b.add(0, "}")
	})
	return fmt.Sprintf("%s(%s)", fn, x)
}

// formatAddress is <nil>; the number of an address cannot be told.
func (p *prog) formatAddress(x string, t types.Type, v *verb) string {
	if v.char != 'v' || v.width > 0 {
		p.refuse("%%%c of a value of type %s", v.char, t)
	}
	l := p.lt(t)
	fn := p.aux("format", "address "+l, func(name string, b *buffer) {
		b.add(0, "func %s(x %s) *%s {", name, l, p.structName(p.textType()))
		b.add(0, "if x != nil {")
		b.add(0, "panic(\"lowering: printing an address is not supported\")")
		b.add(0, "}")
		b.add(0, "return %s", p.textConst("<nil>"))
		b.add(0, "}")
	})
	return fmt.Sprintf("%s(%s)", fn, x)
}

func (p *prog) verbKey(v *verb) string { return fmt.Sprintf("%c%v ", v.char, *v) }

// formatStruct is {..}; the methods of what an unexported field holds are not asked, however deep, as in Go.
func (p *prog) formatStruct(x string, t types.Type, u *types.Struct, v *verb, methods bool) string {
	if p.hasNative(t) {
		p.refuse("printing a value of type %s", t)
	}
	s := p.structOf(t)
	fn := p.aux("format", fmt.Sprint("struct ", p.verbKey(v), methods, typeKey(t)), func(name string, b *buffer) {
		pieces := []piece{{lit: "{", isLit: true}}
		for i, f := range s.fields {
			if i > 0 {
				pieces = append(pieces, piece{lit: " ", isLit: true})
			}
			if v.plus {
				pieces = append(pieces, piece{lit: f.v.Name() + ":", isLit: true})
			}
			pieces = append(pieces, piece{text: p.format("x."+p.fieldRef(t, i), f.v.Type(), v, 1, methods && f.v.Exported())})
		}
		pieces = append(pieces, piece{lit: "}", isLit: true})
		b.add(0, "func %s(x *%s) *%s {", name, s.name, p.structName(p.textType()))
		b.add(0, "return %s", p.textOfPieces(pieces))
		b.add(0, "}")
	})
	return fmt.Sprintf("%s(%s)", fn, x)
}

// formatList is [..] of a slice or an array.
func (p *prog) formatList(x string, t, elem types.Type, v *verb, methods bool) string {
	l := p.lt(t)
	key := fmt.Sprint("list ", p.verbKey(v), methods, typeKey(t))
	fn := p.aux("format", key, func(name string, b *buffer) {
		length, at := "len(s)", p.slot(elem, "s[i]")
		if !isArray(t) {
			length, at = p.sliceLen(elem, "s"), p.at(elem, "s", "i")
		}
		text := p.format(at, elem, v, 1, methods)
		b.add(0, "func %s(s %s) *%s {", name, l, p.structName(p.textType()))
		b.add(0, "r := %s", p.textConst("["))
		b.add(0, "for i := 0; i < %s; i++ {", length)
		b.add(0, "if i > 0 {")
		b.add(0, "r = %s", p.golf("Join", "r", p.textConst(" ")))
		b.add(0, "}")
		b.add(0, "r = %s", p.golf("Join", "r", text))
		b.add(0, "}")
		b.add(0, "return %s", p.golf("Join", "r", p.textConst("]")))
		b.add(0, "}")
	})
	return fmt.Sprintf("%s(%s)", fn, x)
}

// formatMap is map[..], in the order of the keys.
func (p *prog) formatMap(x string, u *types.Map, v *verb, methods bool) string {
	b, ok := under(u.Key()).(*types.Basic)
	if !ok || b.Info()&(types.IsString|types.IsInteger|types.IsFloat|types.IsBoolean) == 0 {
		p.refuse("printing a map with keys of type %s", u.Key())
	}
	fn := p.aux("format", fmt.Sprint("map ", p.verbKey(v), methods, typeKey(u)), func(name string, b *buffer) {
		less := p.keyLess(u.Key())
		key := p.format("ks[i]", u.Key(), v, 1, methods)
		val := p.format(p.mapFunc(u, "at")+"(m, at)", u.Elem(), v, 1, methods)
		w := func(format string, args ...any) { b.add(0, format, args...) }
		w("func %s(m %s) *%s {", name, p.lt(u), p.structName(p.textType()))
		w("ks := %s(m)", p.mapFunc(u, "keys"))
		w("for i := 1; i < len(ks); i++ {")
		w("for j := i; j > 0 && %s; j-- {", less("ks[j]", "ks[j-1]"))
		w("k := ks[j]")
		w("ks[j] = ks[j-1]")
		w("ks[j-1] = k")
		w("}")
		w("}")
		w("r := %s", p.textConst("map["))
		if isFloat(u.Key()) {
			w("odd := 0")
		}
		w("for i := 0; i < len(ks); i++ {")
		w("at := %s(m, ks[i])", p.mapFunc(u, "find"))
		if isFloat(u.Key()) {
			w("if at < 0 {")
			w("at = %s(m, ks[i], odd)", p.mapFunc(u, "odd"))
			w("odd++")
			w("}")
		}
		w("if i > 0 {")
		w("r = %s", p.golf("Join", "r", p.textConst(" ")))
		w("}")
		w("r = %s", p.golf("Join", p.golf("Join", "r", key), p.golf("Join", p.textConst(":"), val)))
		w("}")
		w("return %s", p.golf("Join", "r", p.textConst("]")))
		w("}")
	})
	return fmt.Sprintf("%s(%s)", fn, x)
}

// keyLess is the comparison by which fmt orders the keys of a map: false before true, NaN before all other floats.
func (p *prog) keyLess(t types.Type) func(x, y string) string {
	return func(x, y string) string {
		switch {
		case p.isText(t):
			return p.golf("Compare", x, y) + " < 0"
		case isFloat(t):
			isNaN := func(x string) string { return "!" + p.equal(t, x, x) }
			return fmt.Sprintf("(%s || %s && !(%s))", p.lessOf(t, token.LSS, x, y), isNaN(x), isNaN(y))
		case isWide(t):
			return p.lessOf(t, token.LSS, x, y)
		case p.lt(t) == "bool":
			return fmt.Sprintf("!%s && %s", x, y)
		}
		return fmt.Sprintf("%s < %s", x, y)
	}
}

// formatter is the function that makes the text of an interface by a verb.
type formatter struct {
	name    string
	verb    *verb
	depth   int  // 0 for an operand, 1 for what is in one
	methods bool // the methods of what the interface holds may be asked
	done    map[*dyn]bool
	cases   []string
}

func (p *prog) formatterOf(v *verb) *formatter { return p.formatterAt(v, 0, true) }

// formatterAt is the formatter of an interface that may be a part of an operand.
func (p *prog) formatterAt(v *verb, depth int, methods bool) *formatter {
	p.usesAny = true
	key := fmt.Sprint(p.verbKey(v), depth, methods)
	f := p.formats[key]
	if f == nil {
		names := map[byte]string{'v': "value", 's': "string", 'T': "type", 'P': "panic"}
		n := names[v.char]
		if n == "" {
			n = string(v.char)
		}
		f = &formatter{name: p.fresh("golf_format_" + n), verb: v, depth: depth, methods: methods, done: map[*dyn]bool{}}
		p.formats[key] = f
		p.formList = append(p.formList, f)
		p.lt(p.textType())
	}
	return f
}

// formatRound finds how the types in interfaces are printed; true if one was new.
func (p *prog) formatRound() bool {
	progress := false
	for i := 0; i < len(p.formList); i++ {
		f := p.formList[i]
		for j := 0; j < len(p.dynList); j++ {
			d := p.dynList[j]
			if f.done[d] {
				continue
			}
			f.done[d] = true
			progress = true
			f.cases = append(f.cases, fmt.Sprintf("%d %s", d.tag, p.formatCase(f, d)))
		}
	}
	return progress
}

// formatCase is the statement for a type in an interface; one that cannot be printed ends the program.
func (p *prog) formatCase(f *formatter, d *dyn) (stmt string) {
	var err error
	defer func() {
		if e, ok := err.(*load.Error); ok {
			what, _, _ := strings.Cut(e.Msg, ": not supported")
			stmt = fmt.Sprintf("panic(%s)", p.quote("lowering: "+what+" is not supported"))
		}
	}()
	defer p.guard(&err)
	if f.verb.char == 'K' {
		if isString(d.t) {
			return "return " + p.textConst("s")
		}
		return "return nil"
	}
	if f.verb.char == 'P' {
		return "return " + p.told("x."+d.field(), d.t)
	}
	if f.verb.char == 'T' {
		return "return " + p.padded(p.textConst(typeText(d.t)), f.verb)
	}
	return "return " + p.format("x."+d.field(), d.t, f.verb, f.depth, f.methods)
}

// formatTables writes the functions of the formatters.
func (p *prog) formatTables() {
	b := &p.decls
	for _, f := range p.formList {
		b.add(0, "func %s(x *golf_any) *%s {", f.name, p.structName(p.textType()))
		b.add(0, "if x == nil {")
		if f.verb.char == 'K' {
			b.add(0, "return nil")
		} else if f.depth > 0 { // without the width, as in Go
			b.add(0, "return %s", p.textConst("<nil>"))
		} else if f.verb.char == 'P' {
			b.add(0, "return %s", p.textConst("nil"))
		} else if f.verb.char == 'T' || f.verb.char == 'v' {
			b.add(0, "return %s", p.padded(p.textConst("<nil>"), f.verb))
		} else {
			b.add(0, "return %s", p.textConst("%!"+string(f.verb.char)+"(<nil>)"))
		}
		b.add(0, "}")
		for _, c := range f.cases {
			tag, stmt, _ := strings.Cut(c, " ")
			b.add(0, "if x.tag == %s {", tag)
			b.add(0, "%s", stmt)
			b.add(0, "}")
		}
		b.add(0, "panic(\"lowering: a value of this type cannot be printed\")")
		b.add(0, "}")
	}
}
