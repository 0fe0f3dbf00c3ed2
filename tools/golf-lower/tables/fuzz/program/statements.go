package program

import (
	"fmt"
	"strings"
)

// deepest is how deep statements are nested.
const deepest = 3

// statement writes one statement.
func (g *generator) statement() {
	simple := []func(){g.declaration, g.declaration, g.declarations, g.assign, g.assign, g.assign, g.opAssign, g.opAssign, g.assignAll,
		g.print, g.print, g.print, g.results, g.commaOK, g.mapStmt, g.sliceStmt, g.shared, g.method, g.textStmt, g.mixed, g.mixed}
	nested := []func(){g.ifStmt, g.forStmt, g.rangeStmt, g.rangeStmt, g.switchStmt, g.switchStmt, g.typeSwitch, g.selectStmt, g.closure,
		g.goroutine, g.deferLoop, g.shadow, g.gotoStmt, g.leave, g.panicking}
	if g.nesting < deepest && g.r.Intn(3) == 0 {
		nested[g.r.Intn(len(nested))]()
		return
	}
	simple[g.r.Intn(len(simple))]()
}

// declare adds a variable to the scope.
func (g *generator) declare(name string, t *typ) {
	g.scope = append(g.scope, variable{name: name, t: t})
}

// declaration declares a variable.
func (g *generator) declaration() {
	t := g.choose()
	v := g.name("v")
	switch {
	case t.solid() && t.kind != mapKind && g.r.Intn(5) == 0:
		g.line("var %s %s", v, t.text)
	case g.r.Intn(2) == 0:
		g.line("var %s %s = %s", v, t.text, g.value(t, 3))
	default:
		g.line("%s := %s", v, g.value(t, 3))
	}
	g.declare(v, t)
}

// declarations declares two variables at once, one of which may have the name of an outer one.
func (g *generator) declarations() {
	t, u := g.choose(), g.choose()
	v, w := g.name("v"), g.name("w")
	g.line("%s, %s := %s, %s", v, w, g.value(t, 2), g.value(u, 2))
	g.declare(v, t)
	g.declare(w, u)
}

// target is a place that can be assigned to, with the condition under which it is there.
type target struct {
	text, guard string
	t           *typ
}

// target goes from a variable to a part of it. An element of a map is no variable: only a pointer or a slice goes on from it.
func (g *generator) target() (target, bool) {
	var list []variable
	for _, v := range g.scope {
		if !v.fixed {
			list = append(list, v)
		}
	}
	v := list[g.r.Intn(len(list))]
	at := target{text: v.name, t: v.t}
	inMap := false
	for range 3 {
		if g.r.Intn(4) == 0 || !g.into(&at, &inMap) {
			break
		}
	}
	return at, at.t.kind != chanKind
}

// into goes from a place to a part of it; false if there is none.
func (g *generator) into(at *target, inMap *bool) bool {
	t := at.t
	switch {
	case t.kind == arrayKind && !*inMap:
		at.text, at.t = fmt.Sprintf("%s[%s]", at.text, g.index(t.n, 1)), t.elem
	case t.kind == structKind && !*inMap:
		f := t.fields[g.r.Intn(len(t.fields))]
		at.text, at.t = at.text+"."+f.name, f.t
	case t.kind == sliceKind:
		if !g.recovers {
			at.guard += fmt.Sprintf(" && len(%s) > 1", at.text)
		}
		at.text, at.t, *inMap = fmt.Sprintf("%s[%s]", at.text, g.index(2, 1)), t.elem, false
	case t.kind == mapKind:
		if !g.recovers {
			at.guard += fmt.Sprintf(" && %s != nil", at.text)
		}
		at.text, at.t, *inMap = fmt.Sprintf("%s[%s]", at.text, g.value(t.key, 1)), t.elem, true
	case t.kind == pointerKind:
		at.text, at.t, *inMap = "(*"+at.text+")", t.elem, false
	default:
		return false
	}
	return true
}

// guarded writes a statement under the condition of its places.
func (g *generator) guarded(guard, format string, args ...any) {
	if guard == "" {
		g.line(format, args...)
		return
	}
	g.line("if true%s {", guard)
	g.indented(func() { g.line(format, args...) })
	g.line("}")
}

// limited is a value that is assigned. A string is cut, so that it does not grow in loops.
func (g *generator) limited(t *typ, depth int) string {
	if t.kind == stringKind {
		return "cut(" + g.value(t, depth) + ")"
	}
	return g.value(t, depth)
}

// assign assigns to a place.
func (g *generator) assign() {
	if at, ok := g.target(); ok {
		g.guarded(at.guard, "%s = %s", at.text, g.limited(at.t, 3))
	}
}

// opAssign is an assignment with an operator, or ++ and --.
func (g *generator) opAssign() {
	for range 8 {
		at, _ := g.target()
		switch {
		case at.t.kind == intKind && g.r.Intn(4) == 0:
			g.guarded(at.guard, "%s%s", at.text, g.one("++", "--"))
		case at.t.kind == intKind && g.r.Intn(4) == 0:
			g.guarded(at.guard, "%s %s= %d", at.text, g.one("<<", ">>", "/", "%"), 1+g.r.Intn(7))
		case at.t.kind == intKind:
			g.guarded(at.guard, "%s %s= %s", at.text, g.one("+", "-", "*", "|", "&", "^", "&^"), g.value(at.t, 2))
		case at.t.kind == floatKind:
			g.guarded(at.guard, "%s %s= %s", at.text, g.one("+", "-", "*", "/"), g.expr(at.t, 2))
		case at.t.kind == stringKind:
			g.guarded(at.guard, "%s = cut(%s + %s)", at.text, at.text, g.value(at.t, 2))
		default:
			continue
		}
		return
	}
	g.line("total += %s", g.value(intType, 2))
}

// assignAll assigns to two places at once.
func (g *generator) assignAll() {
	a, ok := g.target()
	b, also := g.target()
	if ok && also {
		g.guarded(a.guard+b.guard, "%s, %s = %s, %s", a.text, b.text, g.limited(a.t, 2), g.limited(b.t, 2))
	}
}

// print prints some values.
func (g *generator) print() {
	a, b := g.printed(), g.printed()
	switch g.r.Intn(4) {
	case 0:
		g.line("fmt.Printf(%q, %s, %s)", g.format(a)+"\n", g.value(a, 3), g.value(intType, 2))
	case 1:
		g.line("fmt.Print(%s, %s, %q)", g.value(a, 2), g.value(b, 2), "\n")
	default:
		g.line("fmt.Println(%s, %s)", g.value(a, 3), g.value(b, 3))
	}
}

// mixed reads a variable beside calls that change it.
func (g *generator) mixed() {
	v := g.assignable(intType)
	call := g.one("inc(&"+v+")", "func() int { "+v+" += 2; return "+v+" }()")
	switch g.r.Intn(7) {
	case 0:
		g.line("fmt.Println(%s, %s, %s*2, tick(1), total, tick(2))", v, call, v)
	case 1:
		g.line("fmt.Println([]int{%s, %s, total, %s}, [...]string{2: names[0], 0: fmt.Sprint(tick(3), names[1])})", v, call, v)
	case 2:
		g.line("total, %s = %s, %s+total", v, v, call)
	case 3:
		g.line("names[mod(%s, 2)] = cut(fmt.Sprint(%s, names[0]))", call, v)
	case 4:
		g.line("%s += %s*%s + total", v, v, call)
	case 5:
		s := g.name("s")
		g.line("%s := boxed(%s)", s, v)
		g.line("fmt.Println(%s.n, %s.put(%s), %s.v, %s.n, *%s)", s, s, call, s, s, s)
	default:
		m := g.name("m")
		g.line("%s := map[int]int{%s: %s, %s: %s}", m, v, call, call, v)
		g.line("%s[%s] += %s", m, v, call)
		g.line("fmt.Println(%s, %s > %s && %s > 0, %s-%s)", m, v, call, call, v, call)
	}
}

// results calls a function with several results.
func (g *generator) results() {
	for _, i := range g.order(len(g.funcs), true) {
		f := g.funcs[i]
		if len(f.results) != 2 {
			continue
		}
		v, w := g.name("v"), g.name("w")
		g.line("%s, %s := %s(%s)", v, w, f.name, g.args(f, 2))
		g.declare(v, f.results[0])
		g.declare(w, f.results[1])
		return
	}
	g.print()
}

// commaOK asks a map, an interface or a channel with a second value.
func (g *generator) commaOK() {
	v, ok := g.name("v"), g.name("ok")
	t := g.choose()
	switch {
	case t.kind == mapKind:
		g.line("%s, %s := %s[%s]", v, ok, g.leafOrNew(t, 2), g.value(t.key, 1))
		t = t.elem
	case t.kind == chanKind:
		c := g.name("c")
		g.line("%s := filled(%s)", c, g.value(t.elem, 1))
		g.line("close(%s)", c)
		g.line("if %s { <-%s }", g.expr(boolType, 1), c)
		g.line("%s, %s := <-%s", v, ok, c)
		t = t.elem
	case t.solid() && t.kind != anyKind:
		g.line("%s, %s := %s.(%s)", v, ok, g.expr(anyType, 2), t.text)
	default:
		g.print()
		return
	}
	if !g.recovers && !t.solid() {
		g.line("_ = %s", v)
	} else {
		g.declare(v, t)
	}
	g.declare(ok, boolType)
}

// mapStmt deletes, clears or counts.
func (g *generator) mapStmt() {
	for range 10 {
		t := g.choose()
		m := g.variable(t)
		if t.kind != mapKind || m == "" {
			continue
		}
		switch g.r.Intn(4) {
		case 0, 1:
			g.line("delete(%s, %s)", m, g.value(t.key, 1))
		case 2:
			g.line("clear(%s)", m)
		default:
			g.line("fmt.Println(len(%s))", m)
		}
		return
	}
	g.print()
}

// sliceStmt appends, copies, cuts or clears.
func (g *generator) sliceStmt() {
	for range 10 {
		t := g.choose()
		l := g.assignable(t)
		if t.kind != sliceKind || l == "" {
			continue
		}
		switch g.r.Intn(6) {
		case 0, 1:
			g.line("%s = append(lim(%s), %s)", l, l, g.value(t.elem, 2))
		case 2:
			g.line("%s = append(lim(%s), lim(%s)...)", l, l, g.expr(t, 2))
		case 3:
			g.line("fmt.Println(copy(%s, %s))", l, g.expr(t, 2))
		case 4:
			g.line("%s = %s[len(%s)/2:]", l, l, l)
		default:
			if t.elem.solid() {
				g.line("clear(%s[:len(%s)/2])", l, l)
			}
		}
		return
	}
	g.print()
}

// shared makes slices that share memory, within a room that the program has made.
func (g *generator) shared() {
	t := g.choose()
	if !t.solid() {
		t = intType
	}
	a, b, c := g.name("a"), g.name("b"), g.name("c")
	g.line("%s := make([]%s, %d, 4)", a, t.text, 1+g.r.Intn(2))
	g.line("%s := append(%s, %s)", b, a, g.value(t, 1))
	g.line("%s := append(%s, %s)", c, a, g.value(t, 1))
	g.line("%s[0] = %s", g.one(a, b, c), g.value(t, 1))
	if t.printable() {
		g.line("fmt.Println(%s, %s, %s, cap(%s))", a, b, c, b)
	}
	for _, v := range []string{a, b, c} {
		g.line("_ = %s", v)
	}
}

// method calls a method, by a value of it or by an expression of the type.
func (g *generator) method() {
	s := g.structs[g.r.Intn(len(g.structs))]
	v := g.assignable(s)
	if v == "" {
		v = g.name("s")
		g.line("%s := %s", v, g.value(s, 2))
		g.declare(v, s)
	}
	m := g.name("m")
	switch g.r.Intn(4) {
	case 0:
		g.line("%s := %s.area", m, v)
	case 1:
		g.line("%s := %s.bump", m, v)
	case 2:
		g.line("%s := func(k int) int { return (*%s).bump(&%s, k) }", m, s.text, v)
	default:
		g.line("var %s func(int) int = (&%s).bump", m, v)
	}
	g.line("%s = %s", v, g.value(s, 2))
	g.line("fmt.Println(%s(%s))", m, g.value(intType, 1))
	g.declare(m, intFunc)
}

// textStmt goes over a string, or changes its bytes or its runes.
func (g *generator) textStmt() {
	b := g.name("b")
	switch g.r.Intn(4) {
	case 0:
		g.line("%s := []byte(%s)", b, g.expr(stringType, 2))
		g.line("if len(%s) > 1 { %s[0], %s[1] = %s[1], %s[0] + 1 }", b, b, b, b, b)
		g.line("fmt.Println(string(%s), %s)", b, b)
	case 1:
		g.line("%s := []rune(%s)", b, g.expr(stringType, 2))
		g.line("slices.Reverse(%s)", b)
		g.line("fmt.Println(string(%s), len(%s))", b, b)
	case 2:
		g.line("for %s, r := range %s { fmt.Print(%s, r, %q) }", b, g.expr(stringType, 2), b, ";")
		g.line("fmt.Println()")
	default:
		g.line("%s := append([]byte(%s), %s...)", b, g.expr(stringType, 1), g.expr(stringType, 1))
		g.line("fmt.Printf(%q, %s, %s)", "%x %q\n", b, b)
	}
}

// goroutine gets what a goroutine sends over a channel.
func (g *generator) goroutine() {
	t := g.choose()
	c, v, x := g.name("c"), g.name("w"), g.name("x")
	g.line("%s, %s := make(chan %s, %d), %s", c, x, t.text, g.r.Intn(3), g.value(t, 2))
	g.line("go func() {")
	g.line("\tdefer close(%s)", c)
	for range 1 + g.r.Intn(2) {
		g.line("\t%s <- %s", c, x)
	}
	g.line("}()")
	g.line("for %s := range %s {", v, c)
	old := len(g.scope)
	g.declare(v, t)
	g.indented(func() {
		g.block(1)
		g.close(old)
	})
	g.line("}")
}

// closure declares a function that changes what it captures.
func (g *generator) closure() {
	t := g.choose()
	v, f, x := g.name("n"), g.name("h"), g.name("x")
	g.line("%s := %s", v, g.value(t, 2))
	g.line("%s := func(%s int) int {", f, x)
	g.inLiteral(append(append([]variable(nil), g.scope...), variable{name: v, t: t}, variable{name: x, t: intType}), func() {
		g.indented(func() {
			g.fuel(intType)
			if g.r.Intn(3) == 0 {
				g.line("defer func() { total += %s }()", x)
			}
			g.line("%s = %s", v, g.limited(t, 2))
			g.block(1)
			g.line("return %s", g.value(intType, 1))
		})
	})
	g.line("}")
	g.declare(v, t)
	g.declare(f, intFunc)
	g.line("fmt.Println(%s(%s))", f, g.value(intType, 1))
}

// deferLoop defers calls in a loop, in a function of its own.
func (g *generator) deferLoop() {
	g.line("func() {")
	g.indented(func() {
		g.line("for i := range %d {", 1+g.r.Intn(3))
		g.line("\tdefer func(k int) { note(i+k, %s) }(%s)", g.leaf(stringType), g.value(intType, 1))
		g.line("}")
		g.inLiteral(g.scope, func() { g.block(1) })
	})
	g.line("}()")
}

// shadow is a block in which a variable has the name of an outer one.
func (g *generator) shadow() {
	var list []variable
	for _, v := range g.scope {
		if !v.fixed && v.name[0] != '(' {
			list = append(list, v)
		}
	}
	g.line("{")
	old := len(g.scope)
	g.indented(func() {
		if len(list) > 0 {
			v := list[g.r.Intn(len(list))]
			g.line("%s := %s", v.name, g.limited(v.t, 2))
			g.line("_ = %s", v.name)
		}
		g.block(2)
		g.close(old)
	})
	g.line("}")
}

// leave returns from the function, or panics in a program that recovers.
func (g *generator) leave() {
	switch {
	case g.returns != nil:
		g.line("if %s {", g.expr(boolType, 2))
		g.indented(func() { g.returnStmt(g.returns) })
		g.line("}")
	case g.recovers:
		g.line("if %s { panic(%s) }", g.expr(boolType, 2), g.dynamic(1))
	default:
		g.print()
	}
}

// panicking runs statements that may panic, and those that a panic must not leave out.
func (g *generator) panicking() {
	if !g.recovers {
		g.closure()
		return
	}
	g.line("try(%d, func() {", g.next)
	g.indented(func() {
		g.line("defer note(%s, %s)", g.value(intType, 1), g.value(stringType, 1))
		g.inLiteral(g.scope, func() {
			g.block(2)
			switch g.r.Intn(4) {
			case 0:
				g.line("panic(%s)", g.dynamic(1))
			case 1:
				g.line("panic(fmt.Errorf(%q, %s))", "e %v", g.value(intType, 1))
			case 2:
				g.line("_ = %s.(%s)", g.expr(anyType, 1), g.printed().text)
			}
		})
	})
	g.line("})")
}

// joined are expressions of a type.
func (g *generator) joined(t *typ, n, depth int) string {
	var list []string
	for range n {
		list = append(list, g.expr(t, depth))
	}
	return strings.Join(list, ", ")
}
