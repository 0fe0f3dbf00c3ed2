package kind

import (
	"go/ast"
	"go/importer"
	"go/parser"
	"go/token"
	"go/types"
	"testing"
)

const text = `package p

type (
	named  struct{ a int }
	list   []named
	fn     func(a int, b ...string) (bool, error)
	gen[T any] struct{ v T }
	face   interface{ M(); N(x int) string }
	face2  interface{ N(x int) string; M() }
)

var (
	a struct{ a int }
	b named
	c *named
	d [2]byte
	e [2]uint8
	f struct{}
	g gen[int]
	h gen[string]
	i face
	j any
	k fn
	l func(int, ...string) (bool, error)
)

func one() any { type t int; return t(0) }
func two() any { type t int; return t(0) }
`

func check(t *testing.T) (*types.Package, *types.Info) {
	t.Helper()
	fset := token.NewFileSet()
	file, err := parser.ParseFile(fset, "p.go", text, 0)
	if err != nil {
		t.Fatal(err)
	}
	info := &types.Info{Defs: map[*ast.Ident]types.Object{}}
	pkg, err := (&types.Config{Importer: importer.Default()}).Check("p", fset, []*ast.File{file}, info)
	if err != nil {
		t.Fatal(err)
	}
	return pkg, info
}

func TestKinds(t *testing.T) {
	pkg, _ := check(t)
	for name, want := range map[string][5]bool{ // struct, array, reference, interface, pointer
		"a": {true, false, true, false, false},
		"b": {true, false, true, false, false},
		"c": {false, false, false, false, true},
		"d": {false, true, true, false, false},
		"f": {false, false, false, false, false},
		"i": {false, false, false, true, false},
		"j": {false, false, false, true, false},
		"k": {false, false, false, false, false},
	} {
		x := pkg.Scope().Lookup(name).Type()
		if got := [5]bool{IsStruct(x), IsArray(x), IsRef(x), IsIface(x), IsPtr(x)}; got != want {
			t.Errorf("%s: %v, want %v", name, got, want)
		}
	}
}

func TestIdenticalTypesHaveOneKey(t *testing.T) {
	pkg, info := check(t)
	all := map[string]types.Type{}
	for _, n := range pkg.Scope().Names() {
		if o, ok := pkg.Scope().Lookup(n).(*types.Var); ok {
			all[n] = o.Type()
		}
	}
	for _, o := range info.Defs {
		if tn, ok := o.(*types.TypeName); ok && tn.Parent() != pkg.Scope() && tn.Name() == "t" {
			all[tn.String()+string(rune(tn.Pos()))] = tn.Type()
		}
	}
	for _, f := range []string{"face", "face2"} {
		all[f] = pkg.Scope().Lookup(f).Type().Underlying()
	}
	for n, x := range all {
		for m, y := range all {
			if (Key(x) == Key(y)) != types.Identical(x, y) {
				t.Errorf("%s and %s: keys %q and %q", n, m, Key(x), Key(y))
			}
		}
	}
}
