package program

import "slices"

// ifStmt is an if, maybe with a statement before its condition, and with else.
func (g *generator) ifStmt() {
	old := len(g.scope)
	if g.r.Intn(3) == 0 {
		t := g.choose()
		v := g.name("v")
		g.line("if %s := %s; %s {", v, g.value(t, 1), g.expr(boolType, 2))
		g.declare(v, t)
	} else {
		g.line("if %s {", g.expr(boolType, 3))
	}
	g.indented(func() {
		for _, v := range g.scope[old:] {
			g.line("_ = %s", v.name)
		}
		g.block(1 + g.r.Intn(2))
	})
	if g.r.Intn(2) == 0 {
		g.line("} else if %s {", g.expr(boolType, 2))
		g.indented(func() { g.block(1) })
	}
	if g.r.Intn(2) == 0 {
		g.line("} else {")
		g.indented(func() { g.block(1) })
	}
	g.scope = g.scope[:old]
	g.line("}")
}

// loop writes the inside of a loop, with a break or a continue out of it or out of one around it.
func (g *generator) loop(label string, vars ...variable) {
	old := len(g.scope)
	g.scope = append(g.scope, vars...)
	g.labels = append(g.labels, label)
	g.indented(func() {
		for _, v := range vars {
			g.line("_ = %s", v.name)
		}
		g.block(1 + g.r.Intn(2))
		if g.r.Intn(2) == 0 {
			to := ""
			if l := g.labels[g.r.Intn(len(g.labels))]; l != "" {
				to = " " + l
			}
			g.line("if %s { %s%s }", g.expr(boolType, 2), g.one("break", "continue"), to)
		}
		if label != "" {
			g.line("if %s { continue %s }", g.expr(boolType, 1), label)
		}
		g.block(1)
	})
	g.labels = g.labels[:len(g.labels)-1]
	g.scope = g.scope[:old]
	g.line("}")
}

// label begins a loop with a label, or gives "".
func (g *generator) label() string {
	if g.r.Intn(3) > 0 {
		return ""
	}
	l := g.name("L")
	g.line("%s:", l)
	return l
}

// forStmt is a loop that counts. Its variable may be captured, and counts again in each round.
func (g *generator) forStmt() {
	i, t, form := g.name("i"), g.someInt(), g.r.Intn(4)
	if form == 3 {
		g.line("%s := %s(0)", i, t.text)
	}
	label := g.label()
	g.header = true
	switch form {
	case 0:
		g.line("for %s := %s(0); %s < %d; %s++ {", i, t.text, i, 1+g.r.Intn(3), i)
	case 1:
		g.line("for %s := %s(%d); %s > 1; %s -= 2 {", i, t.text, g.r.Intn(7), i, i)
	case 2:
		g.line("for %s, stop := %s(0), %s; %s < 3 && !stop; %s, stop = %s+1, %s {", i, t.text, g.expr(boolType, 1), i, i, i, g.expr(boolType, 1))
	default:
		g.line("for %s < 2 {", i)
		g.line("\t%s++", i)
	}
	g.header = false
	g.loop(label, variable{name: i, t: t, fixed: true})
}

// rangeStmt is a range over what Go ranges over.
func (g *generator) rangeStmt() {
	label := g.label()
	i, x := g.name("i"), g.name("x")
	key := variable{name: i, t: intType, fixed: true}
	switch g.r.Intn(8) {
	case 0:
		t := g.someInt()
		g.line("for %s := range %s(%d) {", i, t.text, 1+g.r.Intn(3))
		key.t = t
		g.loop(label, key)
	case 1:
		g.line("for %s, %s := range cut(%s) {", i, x, g.rangeOver(stringType))
		g.loop(label, key, variable{name: x, t: runeType})
	case 2, 3:
		t := g.elementType(arrayKind)
		if v := g.variable(t); v != "" && g.r.Intn(2) == 0 {
			g.line("for %s, %s := range &%s {", i, x, v)
		} else {
			g.line("for %s, %s := range %s {", i, x, g.rangeOver(t))
		}
		g.loop(label, key, variable{name: x, t: t.elem})
	case 4, 5:
		t := g.elementType(sliceKind)
		g.line("for %s, %s := range lim(%s) {", i, x, g.rangeOver(t))
		g.loop(label, key, variable{name: x, t: t.elem})
	case 6:
		g.line("for _, %s := range sorted(%s) {", x, g.rangeOver(mapOf(stringType, intType)))
		g.loop(label, variable{name: x, t: stringType})
	default:
		g.overFunction(label, key, x)
	}
}

// rangeOver is what a range is over.
func (g *generator) rangeOver(t *typ) string {
	g.header = true
	x := g.expr(t, 2)
	g.header = false
	return x
}

// elementType is a type of arrays or slices that the program uses.
func (g *generator) elementType(k kind) *typ {
	for range 20 {
		if t := g.choose(); t.kind == k {
			return t
		}
	}
	if k == arrayKind {
		return arrayOf(3, intType)
	}
	return sliceOf(intType)
}

// overFunction is a range over a function: in it nothing is deferred.
func (g *generator) overFunction(label string, key variable, x string) {
	if g.r.Intn(2) == 0 {
		g.line("for %s := range upTo(%d) {", key.name, 1+g.r.Intn(3))
		g.loop(label, key)
		return
	}
	t := g.elementType(sliceKind)
	g.line("for %s, %s := range each(lim(%s)) {", key.name, x, g.rangeOver(t))
	g.loop(label, key, variable{name: x, t: t.elem})
}

// switchStmt is a switch with a value, or with conditions.
func (g *generator) switchStmt() {
	t := g.choose()
	if !t.comparable() || g.r.Intn(3) == 0 {
		g.conditions()
		return
	}
	if t.kind <= stringKind {
		g.line("switch %s {", g.expr(t, 2))
	} else {
		x := g.name("x")
		g.line("switch %s := %s; %s {", x, g.expr(t, 2), x)
	}
	n := 1 + g.r.Intn(3)
	for i := range n {
		g.line("case %s, %s:", g.expr(t, 1), g.expr(t, 1))
		g.indented(func() {
			g.block(1)
			if i < n-1 && g.r.Intn(4) == 0 {
				g.line("fallthrough")
			} else if g.r.Intn(3) == 0 {
				g.line("if %s { break }", g.expr(boolType, 1))
				g.block(1)
			}
		})
	}
	g.otherwise()
}

// conditions is a switch without a value.
func (g *generator) conditions() {
	g.line("switch {")
	for range 1 + g.r.Intn(3) {
		g.line("case %s:", g.joined(boolType, 1+g.r.Intn(2), 2))
		g.indented(func() { g.block(1) })
	}
	g.otherwise()
}

// otherwise ends a switch, maybe with a default.
func (g *generator) otherwise() {
	if g.r.Intn(2) == 0 {
		g.line("default:")
		g.indented(func() { g.block(1) })
	}
	g.line("}")
}

// typeSwitch asks what an interface holds.
func (g *generator) typeSwitch() {
	v := g.name("t")
	g.line("switch %s := %s.(type) {", v, g.expr(anyType, 2))
	var seen []string
	for range 2 + g.r.Intn(3) {
		t := g.printed()
		if t.kind == anyKind || slices.Contains(seen, t.text) {
			continue
		}
		seen = append(seen, t.text)
		g.line("case %s:", t.text)
		old := len(g.scope)
		g.indented(func() {
			g.line("fmt.Println(%q, %s)", t.text, v)
			g.declare(v, t)
			g.block(1)
		})
		g.scope = g.scope[:old]
	}
	g.line("case nil, shape, []error:")
	g.line("\tfmt.Println(\"other\", %s == nil)", v)
	g.line("}")
}

// selectStmt is a select of which at most one case is ready.
func (g *generator) selectStmt() {
	t := g.choose()
	c, d, v := g.name("c"), g.name("d"), g.name("v")
	ready := g.r.Intn(2) == 0
	if ready {
		g.line("%s := filled(%s)", c, g.value(t, 2))
	} else {
		g.line("var %s chan %s", c, t.text)
	}
	g.line("%s := make(chan %s)", d, t.text)
	g.line("select {")
	g.line("case %s := <-%s:", v, c)
	old := len(g.scope)
	g.declare(v, t)
	g.indented(func() {
		g.line("_ = %s", v)
		g.block(1)
	})
	g.scope = g.scope[:old]
	for range 1 + g.r.Intn(2) {
		g.line("case pick(%s, %s, %s) <- %s:", g.expr(boolType, 1), d, d, g.value(t, 2))
		g.line("\tfmt.Println(\"sent\")")
	}
	if !ready || g.r.Intn(2) == 0 {
		g.line("default:")
		g.indented(func() { g.block(1) })
	}
	g.line("}")
}

// gotoStmt jumps back a few times.
func (g *generator) gotoStmt() {
	l, n := g.name("again"), g.name("n")
	g.line("func() {")
	g.indented(func() {
		g.line("%s := 0", n)
		g.line("%s:", l)
		g.line("%s++", n)
		g.inLiteral(g.scope, func() {
			g.line("if %s < 3 && %s { goto %s }", n, g.expr(boolType, 1), l)
			g.line("fmt.Println(%q, %s)", l, n)
		})
	})
	g.line("}()")
}
