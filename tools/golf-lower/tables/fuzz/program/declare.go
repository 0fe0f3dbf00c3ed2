package program

import (
	"fmt"
	"strings"
)

// declareTypes declares named types with methods, and chooses the composite types that the program uses.
func (g *generator) declareTypes() {
	g.use(sliceOf(intType))
	g.use(mapOf(stringType, intType))
	g.use(intFunc)
	for range 1 + g.r.Intn(3) {
		g.declareScalar()
	}
	for range 2 + g.r.Intn(3) {
		g.declareStruct()
	}
	for range 10 {
		g.use(g.random(3))
	}
	for _, t := range g.structs {
		g.use(t)
		g.use(pointerTo(t))
	}
}

// use notes a type and its parts as types of the program.
func (g *generator) use(t *typ) {
	if t == nil {
		return
	}
	for _, u := range g.pool {
		if u.same(t) {
			return
		}
	}
	g.pool = append(g.pool, t)
	for _, part := range []*typ{t.key, t.elem, t.param, t.result} {
		g.use(part)
	}
	for _, f := range t.fields {
		g.use(f.t)
	}
}

// declareScalar declares a type with a predeclared type below.
func (g *generator) declareScalar() {
	t := *basics[g.r.Intn(len(basics))]
	t.text, t.named = g.name("N"), true
	g.scalars = append(g.scalars, &t)
	g.line("type %s %s", t.text, t.plain)
	g.line("")
	g.methods(&t, "x")
	if g.r.Intn(2) == 0 {
		g.line("func (x %s) %s() string { return %q + fmt.Sprint(%s(x)) + %q }", t.text, g.one("String", "Error"), t.text+"<", t.plain, ">")
		g.line("")
	}
}

// declareStruct declares a struct. It may have an earlier one in it without a name.
func (g *generator) declareStruct() {
	t := &typ{kind: structKind, text: g.name("S"), named: true, byPointer: g.r.Intn(2) == 0}
	t.fields = append(g.fields(2, 1+g.r.Intn(3)), field{name: g.name("n"), t: intType})
	if len(g.structs) > 0 && g.r.Intn(2) == 0 {
		e := g.structs[g.r.Intn(len(g.structs))]
		t.fields = append(t.fields, field{name: e.text, t: e, embedded: true})
	}
	g.line("type %s struct {\n\t%s\n}", t.text, strings.Join(declared(t.fields), "\n\t"))
	g.line("")
	g.methods(t, "x")
	g.structs = append(g.structs, t)
	count := t.fields[len(t.fields)-1].name
	if t.fields[len(t.fields)-1].embedded {
		count = t.fields[len(t.fields)-2].name
	}
	g.line("func (x *%s) bump(k int) int { x.%s += k; return x.%s }", t.text, count, count)
	g.line("")
	if g.r.Intn(3) == 0 {
		star := g.one("", "*")
		g.line("func (x %s%s) String() string { return %q + fmt.Sprint(x.%s) + %q }", star, t.text, t.text+"[", count, "]")
		g.line("")
	}
}

// methods declares the method of the interface shape.
func (g *generator) methods(t *typ, recv string) {
	star := ""
	if t.byPointer {
		star = "*"
	}
	g.line("func (%s %s%s) area(k int) int {", recv, star, t.text)
	own := variable{name: recv, t: t}
	if t.byPointer {
		own.name = "(*" + recv + ")"
	}
	g.inFunction([]variable{own, {name: "k", t: intType}}, func() {
		g.fuel(intType)
		if t.byPointer && g.r.Intn(2) == 0 {
			g.assign()
		}
		g.line("return %s", g.expr(intType, 2))
	})
	g.line("}")
	g.line("")
}

// signature is a function of the program.
type signature struct {
	name    string
	params  []*typ
	results []*typ
}

// declareFunction declares a function with statements.
func (g *generator) declareFunction() {
	s := signature{name: g.name("f")}
	var vars []variable
	var params []string
	for i := range g.r.Intn(4) {
		v := variable{name: fmt.Sprintf("p%d", i), t: g.choose()}
		s.params = append(s.params, v.t)
		vars = append(vars, v)
		params = append(params, v.name+" "+v.t.text)
	}
	for range 1 + g.r.Intn(5)/3 {
		s.results = append(s.results, g.choose())
	}
	named := g.r.Intn(2) == 0
	var results []string
	for i, t := range s.results {
		if named {
			v := variable{name: fmt.Sprintf("r%d", i), t: t}
			vars = append(vars, v)
			results = append(results, v.name+" "+t.text)
		} else {
			results = append(results, t.text)
		}
	}
	g.line("func %s(%s) (%s) {", s.name, strings.Join(params, ", "), strings.Join(results, ", "))
	g.inFunction(vars, func() { g.body(s.results, named) })
	g.line("}")
	g.line("")
	g.funcs = append(g.funcs, s)
}

// body writes the statements of a function.
func (g *generator) body(results []*typ, named bool) {
	g.fuel(results...)
	if g.r.Intn(2) == 0 {
		g.deferred(named, results)
	}
	g.returns = results
	for range 3 + g.r.Intn(4) {
		g.statement()
	}
	g.returns = nil
	g.spend()
	if named && g.r.Intn(3) == 0 {
		g.line("return")
		return
	}
	g.returnStmt(results)
}

// returnStmt returns values of these types.
func (g *generator) returnStmt(results []*typ) {
	var list []string
	for _, t := range results {
		list = append(list, g.value(t, 2))
	}
	g.line("return %s", strings.Join(list, ", "))
}

// deferred defers a call that may change the results, and may recover.
func (g *generator) deferred(named bool, results []*typ) {
	switch {
	case g.recovers && g.r.Intn(2) == 0:
		change := ""
		if named && results[0].solid() {
			change = "r0 = " + g.value(results[0], 1) + "; "
		}
		g.line("defer func() { if r := recover(); r != nil { %sfmt.Println(\"caught\", r) } }()", change)
	case named && results[0].kind == intKind:
		g.line("defer func() { r0 %s %s }()", g.one("+=", "-=", "*=", "^="), g.value(results[0], 1))
	default:
		g.line("defer note(%s, %s)", g.value(intType, 1), g.value(stringType, 1))
	}
}

// fuel ends a function at once if the program has called very many.
func (g *generator) fuel(results ...*typ) {
	var list []string
	for _, t := range results {
		list = append(list, g.leaf(t))
	}
	g.line("if fuel--; fuel < 0 {")
	g.line("\treturn %s", strings.Join(list, ", "))
	g.line("}")
}
