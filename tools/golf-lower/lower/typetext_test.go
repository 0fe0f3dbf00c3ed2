package lower

import (
	"go/ast"
	"go/importer"
	"go/parser"
	"go/token"
	"go/types"
	"testing"
)

// The texts are those that fmt.Printf("%T") of Go writes for a value of the type.
func TestTypeTextIsThatOfTheRunTime(t *testing.T) {
	fset := token.NewFileSet()
	f, err := parser.ParseFile(fset, "p.go", `package p
type T struct{}
type G[A, B any] struct{}
var (
	a byte
	b []rune
	c map[string][3]any
	d chan (<-chan int)
	e func(a int, b ...string) (int, error)
	f struct { X int `+"`json:\"x\"`"+`; *T }
	g interface { M(int) T }
	h *G[int, T]
	i struct{}
	j chan<- struct{}
	k func()
	l G[struct{ X, y int }, []T]
)`, 0)
	if err != nil {
		t.Fatal(err)
	}
	conf := types.Config{Importer: importer.Default()}
	pkg, err := conf.Check("p", fset, []*ast.File{f}, nil)
	if err != nil {
		t.Fatal(err)
	}
	for name, want := range map[string]string{
		"a": "uint8",
		"b": "[]int32",
		"c": "map[string][3]interface {}",
		"d": "chan (<-chan int)",
		"e": "func(int, ...string) (int, error)",
		"f": `struct { X int "json:\"x\""; *p.T }`,
		"g": "interface { M(int) p.T }",
		"h": "*p.G[int,p.T]",
		"i": "struct {}",
		"j": "chan<- struct {}",
		"k": "func()",
		"l": "p.G[struct { X int; p.y int },[]p.T]",
	} {
		if got := typeText(pkg.Scope().Lookup(name).Type()); got != want {
			t.Errorf("%s: %s, want %s", name, got, want)
		}
	}
}
