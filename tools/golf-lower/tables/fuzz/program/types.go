package program

import (
	"fmt"
	"slices"
	"strings"
)

// kind says what a type is.
type kind int

const (
	boolKind kind = iota
	intKind
	floatKind
	stringKind
	arrayKind
	sliceKind
	mapKind
	structKind
	pointerKind
	funcKind
	chanKind
	anyKind   // the empty interface
	shapeKind // the interface of the prelude
)

// typ is a type of the program. Types with the same text are identical.
type typ struct {
	kind      kind
	text      string // as the program writes it
	plain     string // the predeclared type below a number, a string or a truth value
	bits      int    // of a number
	signed    bool
	n         int // the length of an array
	key, elem *typ
	fields    []field
	param     *typ // of a function, nil for none
	result    *typ
	named     bool // the program declares it, with the methods of the interface shape
	byPointer bool // these methods have pointer receivers
}

// field is a field of a struct.
type field struct {
	name     string
	t        *typ
	embedded bool
}

func number(name string, k kind, bits int, signed bool) *typ {
	return &typ{kind: k, text: name, plain: name, bits: bits, signed: signed}
}

var (
	boolType   = &typ{kind: boolKind, text: "bool", plain: "bool"}
	stringType = &typ{kind: stringKind, text: "string", plain: "string"}
	intType    = number("int", intKind, 64, true)
	byteType   = number("uint8", intKind, 8, false)
	runeType   = number("int32", intKind, 32, true)
	uintType   = number("uint", intKind, 64, false)
	floatType  = number("float64", floatKind, 64, true)
	anyType    = &typ{kind: anyKind, text: "any"}
	shapeType  = &typ{kind: shapeKind, text: "shape"}
	intFunc    = funcOf(intType, intType)
)

// basics are the predeclared types; int and string come more often.
var basics = []*typ{
	intType, intType, intType, stringType, stringType, boolType, byteType, runeType, uintType, floatType,
	number("int8", intKind, 8, true), number("int16", intKind, 16, true), number("int64", intKind, 64, true),
	number("uint16", intKind, 16, false), number("uint32", intKind, 32, false), number("uint64", intKind, 64, false),
	number("float32", floatKind, 32, true),
}

func arrayOf(n int, elem *typ) *typ {
	return &typ{kind: arrayKind, text: fmt.Sprintf("[%d]%s", n, elem.text), n: n, elem: elem}
}

func sliceOf(elem *typ) *typ { return &typ{kind: sliceKind, text: "[]" + elem.text, elem: elem} }

func mapOf(key, elem *typ) *typ {
	return &typ{kind: mapKind, text: "map[" + key.text + "]" + elem.text, key: key, elem: elem}
}

func pointerTo(elem *typ) *typ { return &typ{kind: pointerKind, text: "*" + elem.text, elem: elem} }

func chanOf(elem *typ) *typ { return &typ{kind: chanKind, text: "chan " + elem.text, elem: elem} }

func funcOf(param, result *typ) *typ {
	text := "func()"
	if param != nil {
		text = "func(" + param.text + ")"
	}
	return &typ{kind: funcKind, text: text + " " + result.text, param: param, result: result}
}

// structOf is a struct type without a name.
func structOf(fields []field) *typ {
	return &typ{kind: structKind, text: "struct{ " + strings.Join(declared(fields), "; ") + " }", fields: fields}
}

// declared are the declarations of fields.
func declared(fields []field) []string {
	var list []string
	for _, f := range fields {
		if f.embedded {
			list = append(list, f.t.text)
		} else {
			list = append(list, f.name+" "+f.t.text)
		}
	}
	return list
}

// same: the types are identical.
func (t *typ) same(o *typ) bool { return t.text == o.text }

// all: the property holds for all parts of a composite type.
func (t *typ) all(holds func(*typ) bool) bool {
	switch t.kind {
	case arrayKind, sliceKind:
		return holds(t.elem)
	case mapKind:
		return holds(t.key) && holds(t.elem)
	case structKind:
		return !slices.ContainsFunc(t.fields, func(f field) bool { return !holds(f.t) })
	}
	return true
}

// printable: fmt prints a value without an address, and always in the same order. golf-go prints maps with basic keys alone.
func (t *typ) printable() bool {
	switch t.kind {
	case pointerKind, funcKind, chanKind, shapeKind:
		return false
	case mapKind:
		return t.key.kind <= stringKind && t.elem.printable()
	}
	return t.all((*typ).printable)
}

// comparable: == takes values of the type.
func (t *typ) comparable() bool {
	switch t.kind {
	case sliceKind, mapKind, funcKind:
		return false
	}
	return t.all((*typ).comparable)
}

// solid: no part of a zero value is a nil that fails when it is used.
func (t *typ) solid() bool {
	switch t.kind {
	case pointerKind, funcKind, chanKind, shapeKind:
		return false
	}
	return t.all((*typ).solid)
}

// numeric: values are numbers.
func (t *typ) numeric() bool { return t.kind == intKind || t.kind == floatKind }

// orders: < takes values of the type.
func (t *typ) orders() bool { return t.numeric() || t.kind == stringKind }

// basic chooses a predeclared type, or one that is declared with such a type below.
func (g *generator) basic() *typ {
	if len(g.scalars) > 0 && g.r.Intn(4) == 0 {
		return g.scalars[g.r.Intn(len(g.scalars))]
	}
	return basics[g.r.Intn(len(basics))]
}

// random makes a type that is nested at most so deep.
func (g *generator) random(depth int) *typ {
	if depth <= 0 || g.r.Intn(4) == 0 {
		return g.basic()
	}
	switch g.r.Intn(12) {
	case 0, 1:
		return arrayOf(1+g.r.Intn(3), g.inner(depth-1))
	case 2, 3:
		return sliceOf(g.inner(depth - 1))
	case 4, 5:
		return mapOf(g.keyType(depth-1), g.inner(depth-1))
	case 6:
		return structOf(g.fields(depth-1, 1+g.r.Intn(3)))
	case 7:
		return pointerTo(g.random(depth - 1))
	case 8:
		return g.funcType(depth - 1)
	case 9:
		if len(g.structs) > 0 {
			return g.structs[g.r.Intn(len(g.structs))]
		}
	case 10:
		return g.instance(depth - 1)
	case 11:
		return anyType
	}
	return g.basic()
}

// inner makes the type of an element or a field. In a program that recovers nothing none may be nil.
func (g *generator) inner(depth int) *typ {
	for {
		if t := g.random(depth); g.recovers || t.solid() {
			return t
		}
	}
}

// keyType makes a type of keys.
func (g *generator) keyType(depth int) *typ {
	for {
		if t := g.random(depth); t.comparable() && t.printable() {
			return t
		}
	}
}

func (g *generator) funcType(depth int) *typ {
	if g.r.Intn(3) == 0 {
		return funcOf(nil, g.random(depth))
	}
	return funcOf(g.random(depth), g.random(depth))
}

// fields makes the fields of a struct. Some names are exported: fmt asks only these for their methods.
func (g *generator) fields(depth, n int) []field {
	var list []field
	for range n {
		list = append(list, field{name: g.name(g.one("a", "b", "A", "B")), t: g.inner(depth)})
	}
	return list
}

// instance is an instance of a generic struct of the prelude.
func (g *generator) instance(depth int) *typ {
	if g.r.Intn(2) == 0 {
		e := g.inner(depth)
		return &typ{kind: structKind, text: "box[" + e.text + "]", fields: []field{{name: "v", t: e}, {name: "n", t: intType}}}
	}
	k, v := g.keyType(depth), g.inner(depth)
	return &typ{kind: structKind, text: "entry[" + k.text + ", " + v.text + "]", fields: []field{{name: "k", t: k}, {name: "V", t: v}}}
}
