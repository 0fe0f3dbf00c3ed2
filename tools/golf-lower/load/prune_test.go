package load

import (
	"go/ast"
	"go/parser"
	"slices"
	"testing"
)

// library is a file of the standard library of which much is not reached.
const library = `package p

import "q"

var table = map[string]int{"a": size}
var size, other = 1, 2
var (
	unused = f()
	used   = g()
)

const c = iota

type T struct{}

func (T) M() { used++ }
func (T) N() {}
func (T) String() string { return word() }
func word() string { return "w" }
func f() int { return 1 }
func g() int { return helper() }
func helper() int { return table["a"] }
func init() {}
`

func TestPruneKeepsWhatIsReached(t *testing.T) {
	for _, c := range []struct {
		name, user string
		bodies     []string // the functions that keep their bodies
		vars       []string
	}{
		{"nothing", "func main() {}", []string{"String", "word", "init"}, nil},
		{"a function", "func main() { p.f() }", []string{"String", "word", "f", "init"}, nil},
		{"a method, and what it reaches", "func main() { p.T{}.M() }",
			[]string{"M", "String", "word", "g", "helper", "init"}, []string{"table", "size", "other", "used"}},
		{"a variable", "func main() { println(p.other) }", []string{"String", "word", "init"}, []string{"size", "other"}},
	} {
		t.Run(c.name, func(t *testing.T) {
			l, err := New(Single([]Source{{"a.go", []byte("package main\nfunc main() {}\n")}}))
			if err != nil {
				t.Fatal(err)
			}
			parse := func(text string) *ast.File {
				f, err := parser.ParseFile(l.Fset, "f.go", text, parser.SkipObjectResolution)
				if err != nil {
					t.Fatal(err)
				}
				return f
			}
			std := parse(library)
			p := &pruner{l: l, names: map[string]bool{}, waiting: map[string][]ast.Node{}, cuts: map[*ast.File]bool{std: true}}
			p.all([]*ast.File{std, parse("package main\n" + c.user)})
			bodies, vars := left(std)
			if !slices.Equal(bodies, c.bodies) || !slices.Equal(vars, c.vars) {
				t.Errorf("bodies %v, want %v; variables %v, want %v", bodies, c.bodies, vars, c.vars)
			}
		})
	}
}

// left are the functions of a file that have bodies, and its variables.
func left(f *ast.File) (bodies, vars []string) {
	for _, d := range f.Decls {
		switch d := d.(type) {
		case *ast.FuncDecl:
			if d.Body != nil {
				bodies = append(bodies, d.Name.Name)
			}
		case *ast.GenDecl:
			for _, s := range d.Specs {
				if v, ok := s.(*ast.ValueSpec); ok && d.Tok.String() == "var" {
					for _, id := range v.Names {
						vars = append(vars, id.Name)
					}
				}
			}
		}
	}
	return bodies, vars
}
