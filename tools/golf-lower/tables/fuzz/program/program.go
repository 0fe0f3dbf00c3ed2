// Package program makes Go programs at random, over all that golf-go takes: types that are nested three deep, literals,
// closures, deferred calls, panics that are recovered, generics, maps with keys of all kinds, strings, conversions, integers of
// all widths, floats, select. A program is deterministic and ends: loops are bounded, and so are the calls.
//
// Go leaves open some of what a program could do. So a program prints no address, looks at no order of a map, and appends
// only to slices without room.
package program

import (
	"fmt"
	"math/rand"
	"strings"
)

// generator makes one program.
type generator struct {
	r        *rand.Rand
	sb       strings.Builder
	indent   int
	next     int // the last number of a name
	recovers bool

	scalars, structs []*typ // that the program declares
	pool             []*typ // composite types
	funcs            []signature

	scope   []variable
	own     int    // where the variables of the function begin in scope
	returns []*typ // the results of the function around a statement, if it may return
	nesting int    // of statements
	inside  int    // of values in interfaces
	header  bool   // in the header of a loop, where there are no function literals
	labels  []string
}

// variable is a variable in scope.
type variable struct {
	name  string
	t     *typ
	fixed bool // it counts a loop: nothing else changes it
}

// Make returns the program of a seed.
func Make(seed int64) string {
	g := &generator{r: rand.New(rand.NewSource(seed))}
	g.recovers = g.r.Intn(5) > 1
	g.sb.WriteString(prelude)
	if g.recovers {
		g.sb.WriteString(trying)
	}
	g.scope = []variable{{name: "total", t: intType}}
	g.declareTypes()
	g.globals()
	for range 2 + g.r.Intn(3) {
		g.declareFunction()
	}
	g.main()
	return g.sb.String()
}

// globals declares variables of the package. Nothing recovers a panic there.
func (g *generator) globals() {
	recovers := g.recovers
	g.recovers = false
	for range 2 + g.r.Intn(4) {
		v := variable{name: g.name("g"), t: g.choose()}
		g.line("var %s %s = %s", v.name, v.t.text, g.value(v.t, 2))
		g.scope = append(g.scope, v)
	}
	g.recovers = recovers
	g.line("")
}

// main writes the function main. In a program that recovers, a panic ends a part of it.
func (g *generator) main() {
	g.line("func main() {")
	g.inFunction(nil, func() {
		for i := range 4 + g.r.Intn(4) {
			if g.recovers {
				g.attempt(i)
			} else {
				g.declaration()
				g.statement()
				g.statement()
			}
			g.show()
		}
		g.spend()
		g.line("fmt.Println(total, names)")
	})
	g.line("}")
}

// attempt is a part of main that a panic ends.
func (g *generator) attempt(i int) {
	v := variable{name: g.name("v"), t: g.choose()}
	g.line("var %s %s", v.name, v.t.text)
	g.scope = append(g.scope, v)
	g.line("try(%d, func() {", i)
	g.indented(func() {
		g.line("%s = %s", v.name, g.value(v.t, 3))
		g.block(2 + g.r.Intn(3))
	})
	g.line("})")
}

// inFunction writes a function with these parameters.
func (g *generator) inFunction(params []variable, write func()) {
	old, own := g.scope, g.own
	g.scope = append(append([]variable(nil), old...), params...)
	g.own = len(g.scope)
	g.indented(write)
	g.scope, g.own = old, own
}

// inLiteral writes the inside of a function literal with these variables in scope.
func (g *generator) inLiteral(scope []variable, write func()) {
	old, own, returns, labels := g.scope, g.own, g.returns, g.labels
	g.scope, g.own, g.returns, g.labels = scope, len(scope), nil, nil
	write()
	g.scope, g.own, g.returns, g.labels = old, own, returns, labels
}

func (g *generator) indented(write func()) {
	g.indent++
	write()
	g.indent--
}

func (g *generator) line(format string, args ...any) {
	if len(args) > 0 {
		format = fmt.Sprintf(format, args...)
	}
	g.sb.WriteString(strings.Repeat("\t", g.indent) + format + "\n")
}

func (g *generator) one(list ...string) string { return list[g.r.Intn(len(list))] }

// name is a new name.
func (g *generator) name(base string) string {
	g.next++
	return fmt.Sprintf("%s%d", base, g.next)
}

// choose chooses a type that the program uses.
func (g *generator) choose() *typ {
	for {
		t := g.basic()
		if g.r.Intn(2) == 0 && len(g.pool) > 0 {
			t = g.pool[g.r.Intn(len(g.pool))]
		}
		if g.recovers || t.solid() || t.kind == pointerKind || t.kind == funcKind || t.kind == shapeKind {
			return t
		}
	}
}

// printed chooses a type whose values can be printed.
func (g *generator) printed() *typ {
	for {
		if t := g.choose(); t.printable() {
			return t
		}
	}
}

// variable is the name of a variable of the type, "" if there is none.
func (g *generator) variable(t *typ) string {
	return g.named(func(v variable) bool { return v.t.same(t) })
}

// assignable is the name of a variable of the type that may be changed.
func (g *generator) assignable(t *typ) string {
	return g.named(func(v variable) bool { return v.t.same(t) && !v.fixed })
}

func (g *generator) named(wanted func(variable) bool) string {
	var list []string
	for _, v := range g.scope {
		if wanted(v) {
			list = append(list, v.name)
		}
	}
	if len(list) == 0 {
		return ""
	}
	return list[g.r.Intn(len(list))]
}

// block writes statements whose variables end with them.
func (g *generator) block(n int) {
	old := len(g.scope)
	g.nesting++
	for range n {
		g.statement()
	}
	g.nesting--
	g.close(old)
}

// close ends the scope of the variables from a place on.
func (g *generator) close(from int) {
	for _, v := range g.scope[from:] {
		g.line("_ = %s", v.name)
	}
	g.scope = g.scope[:from]
}

// spend reads the variables of the function, so that Go has no unused ones.
func (g *generator) spend() { g.close(g.own) }

// show prints some variables.
func (g *generator) show() {
	for _, i := range g.order(len(g.scope), true) {
		if v := g.scope[i]; v.t.printable() {
			g.line("fmt.Println(%q, %s)", v.name, v.name)
			return
		}
	}
}
