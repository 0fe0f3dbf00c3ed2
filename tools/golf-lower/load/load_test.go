package load

import (
	"go/ast"
	"go/parser"
	"go/token"
	"os"
	"path/filepath"
	"slices"
	"strings"
	"testing"
)

func TestWithholdTakesAwayWhatTheModelsDeclare(t *testing.T) {
	file := func(text string) *ast.File {
		f, err := parser.ParseFile(token.NewFileSet(), "f.go", "package p\n"+text, 0)
		if err != nil {
			t.Fatal(err)
		}
		return f
	}
	have := map[string]bool{}
	declared(file("func f()\ntype T struct{}\nfunc (u *U) m()\nvar v = 1"), have)
	real := file(`func f() {}
func g() {}
func (t T) all() {}
type T struct{ a int }
type U struct{}
func (u *U) m() {}
func (u *U) n() {}
func (u *G[A]) n() {}
func init() {}
const (
	a = iota
	v
	b
)`)
	withhold(real, have)
	var left []string
	for _, d := range real.Decls {
		switch d := d.(type) {
		case *ast.FuncDecl:
			left = append(left, key(d))
		case *ast.GenDecl:
			for _, s := range d.Specs {
				switch s := s.(type) {
				case *ast.TypeSpec:
					left = append(left, s.Name.Name)
				case *ast.ValueSpec:
					left = append(left, s.Names[0].Name)
				}
			}
		}
	}
	if want := []string{"g", "U", "U.n", "G.n", "init", "a", "_", "b"}; !slices.Equal(left, want) {
		t.Errorf("%v, want %v", left, want)
	}
}

func TestErrorsThatMayComeFromTheModels(t *testing.T) {
	for msg, want := range map[string]bool{
		"undefined: os.Open":            true,
		"undefined: x":                  false,
		"could not import net/x (gone)": true,
		"f.Fd undefined (type *os.File has no field or method Fd)": true,
		"cannot use \"a\" (untyped string constant) as int value":  false,
		"declared and not used: x":                                 false,
		"T does not implement io.Reader (missing method Read)":     true,
	} {
		if got := lacking(msg); got != want {
			t.Errorf("%s: %v", msg, got)
		}
	}
}

func TestTestNames(t *testing.T) {
	text := "package p\nfunc TestA(t *testing.T) {}\nfunc TestMain(m *testing.M) {}\nfunc (x T) TestB(t *testing.T) {}\n" +
		"func Testable() {}\nfunc TestC(t *testing.T) {}\nfunc helper(t *testing.T) {}\nfunc TestD[A any](t *testing.T) {}\n"
	got := TestNames([]Source{{"a_test.go", []byte(text)}})
	if want := []string{"TestA", "TestC"}; !slices.Equal(got, want) {
		t.Errorf("%v, want %v", got, want)
	}
}

func TestFilesThatNeedModules(t *testing.T) {
	for text, want := range map[string]bool{
		"package p\nimport \"fmt\"":                        false,
		"package p\nimport (\n\"unsafe\"\n\"net/http\"\n)": false,
		"package p\nimport \"golang.org/x/sync/errgroup\"": true,
		"package p\nimport \"example.com/shop/stock\"":     true,
	} {
		if got := NeedsModules([]Source{{"a.go", []byte(text)}}); got != want {
			t.Errorf("%q: %v", text, got)
		}
	}
}

// A declaration that names what the models lack is faulty, and the others are not.
func TestWhatTheModelsLackIsKeptForItsDeclaration(t *testing.T) {
	text := "package main\nimport \"os\"\nfunc main() {}\nfunc open() { os.Open(\"a\") }\n"
	l, err := New(Single([]Source{{"a.go", []byte(text)}}))
	if err != nil {
		t.Fatal(err)
	}
	decls := l.Roots[0].Files[0].Decls
	if l.Faulty[decls[1]] != nil {
		t.Errorf("main: %v", l.Faulty[decls[1]])
	}
	if err := l.Faulty[decls[2]]; err == nil || err.Error() != "a.go:4:18: os.Open: not supported, or no name of its package" {
		t.Errorf("open: %v", err)
	}
}

// Each package that is a model alone says why, and has a model or nothing.
func TestModelsHaveAReason(t *testing.T) {
	for name, why := range only {
		if why == "" || strings.Contains(why, ".") {
			t.Errorf("%s: %q", name, why)
		}
	}
}

func TestLanguageOfAFolder(t *testing.T) {
	dir := t.TempDir()
	inside := filepath.Join(dir, "inside")
	if err := os.Mkdir(inside, 0o777); err != nil {
		t.Fatal(err)
	}
	if got := Language(dir); got != "" {
		t.Errorf("without go.mod %q", got)
	}
	for text, want := range map[string]string{
		"module m\n\ngo 1.20\n":             "go1.20",
		"module m\ngo\t1.18 // as it was\n": "go1.18",
		"module m\n\ngo 1.23.4\n":           "go1.23.4",
		"module m\n":                        "go1.16",
	} {
		if err := os.WriteFile(filepath.Join(dir, "go.mod"), []byte(text), 0o666); err != nil {
			t.Fatal(err)
		}
		for path, want := range map[string]string{dir: want, inside: want, filepath.Join(dir, "go.mod"): ""} {
			if got := Language(path); got != want {
				t.Errorf("%q, %s: %q, want %q", text, path, got, want)
			}
		}
	}
}
