package program

import (
	"fmt"
	"math"
	"strings"
)

// Each text that these functions return can be an operand of any operator: it is in brackets, or needs none.

// texts are the strings of literals.
var texts = []string{"", "a", "bc", "é", "x y", "Zz", "日本", "a\tb", "\"q\"", "bc", "0", "z\\", "\xff!"}

// literal is a constant of a type with a predeclared one below, for use where it has that type.
func (g *generator) literal(t *typ) string {
	x := ""
	switch t.kind {
	case boolKind:
		x = g.one("true", "false")
	case stringKind:
		x = fmt.Sprintf("%q", texts[g.r.Intn(len(texts))])
	case intKind:
		x = g.integer(t)
	case floatKind:
		x = g.one("0.0", "1.5", "-2.25", "0.1", "1e3", "-7.0", "3e-4", "100.0", "16777217.0")
	}
	if t.text == "int" || t.text == "string" || t.text == "bool" || t.text == "float64" {
		return bracketed(x)
	}
	return t.text + "(" + x + ")"
}

func bracketed(x string) string {
	if strings.HasPrefix(x, "-") {
		return "(" + x + ")"
	}
	return x
}

// integer is a number of an integer type, often one at the end of its range.
func (g *generator) integer(t *typ) string {
	if t.signed {
		top := int64(math.MaxInt64) >> (64 - t.bits)
		switch g.r.Intn(9) {
		case 0:
			return fmt.Sprint(top - int64(g.r.Intn(2)))
		case 1:
			return fmt.Sprint(-top - int64(g.r.Intn(2)))
		case 2:
			return fmt.Sprint(-1 - g.r.Intn(5))
		}
		return fmt.Sprint(g.r.Intn(20))
	}
	top := uint64(math.MaxUint64) >> (64 - t.bits)
	switch g.r.Intn(6) {
	case 0:
		return fmt.Sprint(top - uint64(g.r.Intn(2)))
	case 1:
		return fmt.Sprint(top/2 + uint64(g.r.Intn(2)))
	}
	return fmt.Sprint(g.r.Intn(20))
}

// value is any value of a type: a literal, or an expression.
func (g *generator) value(t *typ, depth int) string {
	if g.r.Intn(3) > 0 {
		return g.expr(t, depth)
	}
	if t.kind <= stringKind {
		return g.literal(t)
	}
	return g.composite(t, depth-1)
}

// leaf is a value that is no constant, without further parts.
func (g *generator) leaf(t *typ) string {
	if v := g.variable(t); v != "" && g.r.Intn(3) > 0 {
		return v
	}
	if t.kind <= stringKind {
		return "id(" + g.literal(t) + ")"
	}
	return g.composite(t, 0)
}

// composite is a new value of a type that is no basic one.
func (g *generator) composite(t *typ, depth int) string {
	switch t.kind {
	case arrayKind, structKind:
		return "(" + t.text + g.braces(t, depth) + ")"
	case sliceKind:
		return g.slice(t, depth)
	case mapKind:
		if g.r.Intn(6) == 0 {
			return "make(" + t.text + ")"
		}
		return "(" + t.text + g.braces(t, depth) + ")"
	case pointerKind:
		return g.pointer(t, depth)
	case funcKind:
		return g.function(t, depth)
	case chanKind:
		return fmt.Sprintf("filled(%s)", g.value(t.elem, depth))
	case anyKind:
		return "any(" + g.dynamic(depth) + ")"
	case shapeKind:
		return "shape(" + g.shaped(depth) + ")"
	}
	return "id(" + g.literal(t) + ")"
}

// dynamic is a value that may be in an interface. One that cannot be compared is only in programs that recover.
func (g *generator) dynamic(depth int) string {
	g.inside++
	defer func() { g.inside-- }()
	for {
		t := g.choose()
		if g.inside > 2 {
			t = g.basic()
		}
		if t.printable() && t.kind != anyKind && (t.comparable() || g.recovers) {
			return g.value(t, depth)
		}
	}
}

// shaped is a value of a type that has the methods of shape.
func (g *generator) shaped(depth int) string {
	g.inside++
	defer func() { g.inside-- }()
	list := append(append([]*typ(nil), g.scalars...), g.structs...)
	if g.inside > 2 {
		list = g.scalars
	}
	t := list[g.r.Intn(len(list))]
	if t.byPointer || t.kind == structKind && g.r.Intn(3) == 0 {
		return g.pointer(pointerTo(t), depth)
	}
	return g.value(t, depth)
}

// braces are the elements of a literal in braces.
func (g *generator) braces(t *typ, depth int) string {
	switch t.kind {
	case arrayKind:
		return "{" + strings.Join(g.elements(t.elem, t.n, depth), ", ") + "}"
	case sliceKind:
		return "{" + strings.Join(g.elements(t.elem, g.r.Intn(4), depth), ", ") + "}"
	case mapKind:
		return "{" + strings.Join(g.entries(t, depth), ", ") + "}"
	}
	var list []string
	named := g.r.Intn(2) == 0
	for _, i := range g.order(len(t.fields), named) {
		f := t.fields[i]
		switch {
		case !named:
			list = append(list, g.part(f.t, depth))
		case !f.t.solid() || g.r.Intn(4) > 0:
			list = append(list, f.name+": "+g.value(f.t, depth))
		}
	}
	return "{" + strings.Join(list, ", ") + "}"
}

// order are the numbers below n, mixed if wanted.
func (g *generator) order(n int, mixed bool) []int {
	list := make([]int, n)
	for i := range list {
		list[i] = i
	}
	if mixed {
		g.r.Shuffle(n, func(i, j int) { list[i], list[j] = list[j], list[i] })
	}
	return list
}

// elements are n elements of a literal, some with their indexes in another order.
func (g *generator) elements(t *typ, n, depth int) []string {
	var list []string
	if n > 1 && t.solid() && g.r.Intn(3) == 0 {
		for _, i := range g.order(n, true)[:1+g.r.Intn(n)] {
			list = append(list, fmt.Sprintf("%d: %s", i, g.elided(t, depth)))
		}
		return list
	}
	for range n {
		list = append(list, g.elided(t, depth))
	}
	return list
}

// elided is an element of a literal, whose type may be left out.
func (g *generator) elided(t *typ, depth int) string {
	if g.r.Intn(2) == 0 {
		switch {
		case t.kind >= arrayKind && t.kind <= structKind:
			return g.braces(t, depth-1)
		case t.kind == pointerKind && t.elem.kind == structKind:
			return g.braces(t.elem, depth-1)
		}
	}
	return g.part(t, depth)
}

// part is a value in a literal, which may be flat if the literal is deep.
func (g *generator) part(t *typ, depth int) string {
	if depth <= 0 {
		return g.leaf(t)
	}
	return g.value(t, depth-1)
}

// entries are the entries of a map. Keys that are constants differ.
func (g *generator) entries(t *typ, depth int) []string {
	var list []string
	for i := range g.r.Intn(4) {
		key := g.leaf(t.key)
		if t.key.kind == stringKind && g.r.Intn(2) == 0 {
			key = fmt.Sprintf("%q", string(rune('a'+i)))
		} else if t.key.kind == intKind && g.r.Intn(2) == 0 {
			key = fmt.Sprint(i)
		}
		list = append(list, key+": "+g.elided(t.elem, depth))
	}
	return list
}

func (g *generator) slice(t *typ, depth int) string {
	switch g.r.Intn(6) {
	case 0:
		if t.elem.solid() {
			return fmt.Sprintf("make(%s, %d)", t.text, g.r.Intn(4))
		}
	case 1:
		return "(" + t.text + "(nil))"
	case 2:
		if a := g.variable(arrayOf(3, t.elem)); a != "" {
			return a + g.one("[:]", "[1:]", "[:2]", "[1:2]", "[:1:2]")
		}
	case 3:
		return fmt.Sprintf("append(lim(%s), %s)", g.leaf(t), g.part(t.elem, depth))
	}
	return "(" + t.text + g.braces(t, depth) + ")"
}

func (g *generator) pointer(t *typ, depth int) string {
	e := t.elem
	switch g.r.Intn(5) {
	case 0:
		if v := g.assignable(e); v != "" {
			return "(&" + v + ")"
		}
	case 1:
		if e.solid() {
			return "new(" + e.text + ")"
		}
	case 2:
		if g.recovers && g.r.Intn(3) == 0 {
			return "((" + t.text + ")(nil))"
		}
	case 3:
		if e.kind >= arrayKind && e.kind <= structKind {
			return "(&" + e.text + g.braces(e, depth) + ")"
		}
	}
	return "ref(" + g.part(e, depth) + ")"
}

// function is a function value: a literal, a method or a function of the prelude.
func (g *generator) function(t *typ, depth int) string {
	if t.same(intFunc) && g.r.Intn(2) == 0 {
		switch g.r.Intn(3) {
		case 0:
			return "tick"
		case 1:
			return g.shaped(depth) + ".area"
		}
		return "id(twice)"
	}
	switch {
	case !g.header:
		return g.funcLit(t, depth)
	case t.param == nil:
		return fmt.Sprintf("giving(%s)", g.leaf(t.result))
	}
	return fmt.Sprintf("givingTo[%s](%s)", t.param.text, g.leaf(t.result))
}

// funcLit is a function literal.
func (g *generator) funcLit(t *typ, depth int) string {
	var sb strings.Builder
	param := g.name("q")
	sb.WriteString("(func(")
	vars := g.scope
	if t.param != nil {
		sb.WriteString(param + " " + t.param.text)
		vars = append(append([]variable(nil), vars...), variable{name: param, t: t.param})
	}
	fmt.Fprintf(&sb, ") %s { ", t.result.text)
	g.inLiteral(vars, func() {
		fmt.Fprintf(&sb, "if fuel--; fuel < 0 { return %s }; ", g.leaf(t.result))
		if v := g.assignable(intType); v != "" && g.r.Intn(2) == 0 {
			fmt.Fprintf(&sb, "%s %s %s; ", v, g.one("+=", "-=", "="), g.value(intType, depth-1))
		}
		fmt.Fprintf(&sb, "return %s })", g.value(t.result, depth-1))
	})
	return sb.String()
}
