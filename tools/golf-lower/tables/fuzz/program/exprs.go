package program

import (
	"fmt"
	"strings"
)

// expr is an expression of a type that is no constant.
func (g *generator) expr(t *typ, depth int) string {
	if v := g.variable(t); v != "" && g.r.Intn(3) == 0 {
		return v
	}
	if depth <= 0 {
		return g.leaf(t)
	}
	if x := g.anyway(t, depth-1); x != "" {
		return x
	}
	switch t.kind {
	case boolKind:
		return g.truth(t, depth-1)
	case intKind:
		return g.integral(t, depth-1)
	case floatKind:
		return g.floating(t, depth-1)
	case stringKind:
		return g.text(t, depth-1)
	}
	return g.composite(t, depth)
}

// anyway is an expression of a form that all types have, or "".
func (g *generator) anyway(t *typ, depth int) string {
	switch g.r.Intn(16) {
	case 0, 1, 2:
		return g.access(t, depth)
	case 3:
		return g.call(t, depth)
	case 4:
		return fmt.Sprintf("pick(%s, %s, %s)", g.expr(boolType, depth), g.value(t, depth), g.value(t, depth))
	case 5:
		if t.printable() && t.kind != anyKind && (t.comparable() || g.recovers) {
			return fmt.Sprintf("any(%s).(%s)", g.value(t, depth), t.text)
		}
	case 6:
		return fmt.Sprintf("through(%s)", g.value(t, depth))
	case 7:
		return fmt.Sprintf("boxed(%s).put(%s)", g.value(t, depth), g.value(t, depth))
	case 8:
		if !g.header {
			return g.funcLit(funcOf(nil, t), depth) + "()"
		}
	case 9:
		return fmt.Sprintf("(*ref(%s))", g.value(t, depth))
	case 10:
		return fmt.Sprintf("%s[%d]", g.leafOrNew(arrayOf(2, t), depth), g.r.Intn(2))
	case 11:
		return fmt.Sprintf("(entry[string, %s]{%q, %s}).V", t.text, "k", g.value(t, depth))
	}
	return ""
}

// leafOrNew is a variable of the type, or a new value.
func (g *generator) leafOrNew(t *typ, depth int) string {
	if v := g.variable(t); v != "" {
		return v
	}
	return g.composite(t, depth)
}

// access reads an element, a field or a result of the type out of a value of another type.
func (g *generator) access(t *typ, depth int) string {
	var found []func() string
	add := func(format string, of *typ, more ...func() string) {
		found = append(found, func() string {
			args := []any{g.leafOrNew(of, depth)}
			for _, m := range more {
				args = append(args, m())
			}
			return fmt.Sprintf(format, args...)
		})
	}
	for _, c := range g.pool {
		switch {
		case c.kind == arrayKind && c.elem.same(t):
			add("%s[%s]", c, func() string { return g.index(c.n, depth) })
		case c.kind == sliceKind && c.elem.same(t) && g.recovers && g.r.Intn(2) == 0:
			add("%s[%s]", c, func() string { return g.index(2, depth) })
		case c.kind == sliceKind && c.elem.same(t) && t.solid():
			add("at(%s, %s)", c, func() string { return g.value(intType, depth) })
		case c.kind == mapKind && c.elem.same(t) && (g.recovers || t.solid()):
			add("%s[%s]", c, func() string { return g.value(c.key, depth) })
		case c.kind == pointerKind && c.elem.same(t):
			add("(*%s)", c)
		case c.kind == funcKind && c.result.same(t) && c.param != nil:
			add("%s(%s)", c, func() string { return g.value(c.param, depth) })
		case c.kind == funcKind && c.result.same(t):
			add("%s()", c)
		case c.kind == structKind:
			for _, f := range c.fields {
				if f.t.same(t) {
					add("%s."+f.name, c)
				}
			}
		}
	}
	if len(found) == 0 {
		return ""
	}
	return found[g.r.Intn(len(found))]()
}

// index is an index of an array with n elements; in a program that recovers it may be outside.
func (g *generator) index(n, depth int) string {
	if g.recovers && g.r.Intn(4) == 0 {
		return g.expr(intType, depth)
	}
	if g.r.Intn(2) == 0 {
		return fmt.Sprint(g.r.Intn(n))
	}
	return fmt.Sprintf("mod(%s, %d)", g.value(intType, depth), n)
}

// call calls a function of the program with one result of the type.
func (g *generator) call(t *typ, depth int) string {
	for _, i := range g.order(len(g.funcs), true) {
		f := g.funcs[i]
		if len(f.results) == 1 && f.results[0].same(t) {
			return f.name + "(" + g.args(f, depth) + ")"
		}
	}
	return ""
}

func (g *generator) args(f signature, depth int) string {
	var list []string
	for _, p := range f.params {
		list = append(list, g.value(p, depth))
	}
	return strings.Join(list, ", ")
}

// integral is an integer: arithmetic, conversions, and calls that change something.
func (g *generator) integral(t *typ, depth int) string {
	switch g.r.Intn(14) {
	case 0, 1, 2, 3:
		return fmt.Sprintf("(%s %s %s)", g.expr(t, depth), g.one("+", "-", "*", "&", "|", "^", "&^"), g.value(t, depth))
	case 4, 5:
		return g.division(t, depth)
	case 6, 7:
		return g.shift(t, depth)
	case 8:
		return fmt.Sprintf("(%s%s)", g.one("-", "^"), g.expr(t, depth))
	case 9:
		return fmt.Sprintf("%s(%s, %s)", g.one("min", "max"), g.expr(t, depth), g.value(t, depth))
	case 10:
		if t.text == "int" {
			return g.length(depth)
		}
	case 11, 12:
		if t.text == "int" {
			return g.acting(depth)
		}
	}
	return g.converted(t, depth)
}

func (g *generator) division(t *typ, depth int) string {
	op := g.one("/", "%")
	switch {
	case g.recovers && g.r.Intn(3) == 0:
		return fmt.Sprintf("(%s %s %s)", g.expr(t, depth), op, g.expr(t, depth))
	case g.r.Intn(2) == 0:
		return fmt.Sprintf("(%s %s (%s | 1))", g.expr(t, depth), op, g.expr(t, depth))
	}
	return fmt.Sprintf("(%s %s %d)", g.expr(t, depth), op, 1+g.r.Intn(9))
}

// shift shifts by a constant, by an unsigned count, or in a program that recovers by any integer.
func (g *generator) shift(t *typ, depth int) string {
	count := fmt.Sprint(g.r.Intn(t.bits + 3))
	switch {
	case g.recovers && g.r.Intn(4) == 0:
		count = g.expr(g.someInt(), depth)
	case g.r.Intn(2) == 0:
		count = fmt.Sprintf("(%s %s %d)", g.expr(byteType, depth), "%", t.bits+2)
	}
	return fmt.Sprintf("(%s %s %s)", g.expr(t, depth), g.one("<<", ">>"), count)
}

// someInt is a type of integers.
func (g *generator) someInt() *typ {
	for {
		if t := g.basic(); t.kind == intKind {
			return t
		}
	}
}

// converted is a number that is converted from another type. A float is brought into a range that all types have.
func (g *generator) converted(t *typ, depth int) string {
	from := g.basic()
	for !from.numeric() {
		from = g.basic()
	}
	if from.kind == floatKind && t.kind == intKind {
		return fmt.Sprintf("%s(small(float64(%s)))", t.text, g.expr(from, depth))
	}
	return fmt.Sprintf("%s(%s)", t.text, g.expr(from, depth))
}

// length is the length of something.
func (g *generator) length(depth int) string {
	for {
		t := g.choose()
		switch t.kind {
		case stringKind, mapKind, chanKind:
			return fmt.Sprintf("len(%s)", g.expr(t, depth))
		case sliceKind:
			if g.r.Intn(3) == 0 {
				return fmt.Sprintf("cap(lim(%s))", g.expr(t, depth))
			}
			return fmt.Sprintf("len(%s)", g.expr(t, depth))
		}
	}
}

// acting is an integer whose evaluation changes something.
func (g *generator) acting(depth int) string {
	switch g.r.Intn(7) {
	case 0:
		if v := g.assignable(intType); v != "" && !g.header {
			return fmt.Sprintf("func() int { %s %s %d; return %s }()", v, g.one("+=", "-=", "="), g.r.Intn(9), v)
		}
	case 1, 2:
		if v := g.assignable(intType); v != "" {
			return fmt.Sprintf("inc(&%s)", v)
		}
	case 3:
		if v := g.assignable(arrayOf(3, intType)); v != "" {
			return fmt.Sprintf("inc(&%s[%d])", v, g.r.Intn(3))
		}
	case 4:
		for _, s := range g.structs {
			if v := g.assignable(s); v != "" {
				return fmt.Sprintf("%s.bump(%s)", v, g.value(intType, depth))
			}
		}
	case 5:
		return fmt.Sprintf("%s.area(%s)", g.expr(shapeType, depth), g.value(intType, depth))
	}
	return fmt.Sprintf("tick(%s)", g.value(intType, depth))
}

func (g *generator) floating(t *typ, depth int) string {
	switch g.r.Intn(5) {
	case 0, 1, 2:
		return fmt.Sprintf("(%s %s %s)", g.expr(t, depth), g.one("+", "-", "*", "/"), g.expr(t, depth))
	case 3:
		return fmt.Sprintf("(-%s)", g.expr(t, depth))
	}
	return g.converted(t, depth)
}

// text is a string.
func (g *generator) text(t *typ, depth int) string {
	x := ""
	switch g.r.Intn(9) {
	case 0, 1, 2:
		return fmt.Sprintf("(%s + %s)", g.expr(t, depth), g.value(t, depth))
	case 3:
		if g.recovers && g.r.Intn(2) == 0 {
			return fmt.Sprintf("%s[%s:%s]", g.expr(t, depth), g.index(2, depth), g.expr(intType, depth))
		}
		return fmt.Sprintf("%s(sub(string(%s), %s, %s))", t.text, g.expr(t, depth), g.value(intType, depth), g.value(intType, depth))
	case 4:
		p := g.printed()
		x = fmt.Sprintf("fmt.Sprint(%s, %s)", g.value(p, depth), g.value(intType, depth))
	case 5, 6:
		p := g.printed()
		x = fmt.Sprintf("fmt.Sprintf(%q, %s, %s)", g.format(p), g.value(p, depth), g.value(intType, depth))
	case 7:
		x = fmt.Sprintf("string([]byte(%s))", g.expr(stringType, depth))
	default:
		x = fmt.Sprintf("string(rune(%d+mod(%s, 90)))", 33+g.r.Intn(600), g.value(intType, depth))
	}
	if t.text != "string" {
		return t.text + "(" + x + ")"
	}
	return x
}

// format is a format of a value of the type, and of an integer.
func (g *generator) format(t *typ) string {
	verb := g.one("%v", "%v", "%+v", "%6v|", "%-6v|")
	switch t.kind {
	case intKind:
		verb = g.one("%d", "%5d", "%-5d|", "%05d", "%+d", "%x", "%X", "%#x", "%o", "%b", "%v", "% d")
	case floatKind:
		verb = g.one("%v", "%g", "%.2f", "%8.3f", "%e", "%+.1f")
	case stringKind:
		verb = g.one("%s", "%q", "%x", "%8s|", "%-8s|", "%.2s", "%v")
	case boolKind:
		verb = g.one("%t", "%v", "%6t")
	case anyKind:
		verb = g.one("%v", "%T")
	}
	return verb + g.one("/", " ", "") + g.one("%d", "%3d", "%x")
}

// truth is a truth value.
func (g *generator) truth(t *typ, depth int) string {
	x := ""
	switch g.r.Intn(8) {
	case 0, 1:
		o := g.choose()
		for !o.orders() {
			o = g.choose()
		}
		x = fmt.Sprintf("(%s %s %s)", g.expr(o, depth), g.one("<", "<=", ">", ">=", "==", "!="), g.value(o, depth))
	case 2, 3:
		o := g.choose()
		for !o.comparable() || o.kind == boolKind {
			o = g.choose()
		}
		x = fmt.Sprintf("(%s %s %s)", g.expr(o, depth), g.one("==", "!="), g.value(o, depth))
	case 4:
		m := g.choose()
		for m.kind != mapKind {
			m = g.choose()
		}
		x = fmt.Sprintf("has(%s, %s)", g.expr(m, depth), g.value(m.key, depth))
	case 5:
		x = fmt.Sprintf("(%s == nil)", g.expr(g.nilable(), depth))
	case 6:
		return fmt.Sprintf("(!%s)", g.expr(t, depth))
	default:
		return fmt.Sprintf("(%s %s %s)", g.expr(t, depth), g.one("&&", "||"), g.expr(t, depth))
	}
	if t.text != "bool" {
		return t.text + "(" + x + ")"
	}
	return x
}

// nilable is a type with the value nil.
func (g *generator) nilable() *typ {
	for {
		if t := g.choose(); t.kind > arrayKind && t.kind != structKind {
			return t
		}
	}
}
