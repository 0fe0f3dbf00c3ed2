package analyse

import (
	"fmt"
	"go/ast"
	"maps"
	"slices"
	"strings"
	"testing"

	"golflower/load"
)

// factsOf analyses the functions of a file.
func factsOf(t *testing.T, text string) (*Facts, *load.Loader) {
	t.Helper()
	l, err := load.New(load.Single([]load.Source{{Name: "a.go", Text: []byte("package main\n" + text)}}))
	if err != nil {
		t.Fatal(err)
	}
	f := New()
	for _, file := range l.Roots[0].Files {
		f.File(l, file)
	}
	return f, l
}

func TestVariables(t *testing.T) {
	for _, c := range []struct{ name, body, want string }{
		{"a variable alone", "x := 1; _ = x", "x used"},
		{"one that is assigned to", "x := 1; x = 2; _ = x", "x assigned used"},
		{"one that is counted", "x := 1; x++", "x assigned used"},
		{"one that a literal reads", "x := 1; func() { _ = x }()", "x captured used"},
		{"one that a literal changes", "x := 1; func() { x = 2 }(); _ = x", "x captured assigned used"},
		{"one whose address is taken", "x := 1; _ = &x", "x addr pointed used"},
		{"the counter of a loop", "for x := 0; x < 3; x++ { func() { _ = x }() }", "x captured used"},
		{"a counter that the body changes", "for x := 0; x < 3; x++ { x += 2 }", "x assigned used"},
		{"one that a range assigns to", "var x int; for x = range 3 {}; _ = x", "x assigned used"},
		{"a receiver of a method with a pointer", "var x num; x.set()", "x addr pointed used"},
		{"a struct, which has storage of its own", "var x pair; _ = &x", "x pointed used"},
		{"a struct of which a field is pointed to", "var x pair; _ = &x.a", "x pointed used"},
		{"an array that is sliced", "var x [2]int; _ = x[:]", "x pointed used"},
		{"a pointer whose field is pointed to", "x := &pair{}; _ = &x.a", "x used"},
		{"nobody reads it", "var x int", ""},
	} {
		t.Run(c.name, func(t *testing.T) {
			text := "type num int\nfunc (n *num) set() {}\ntype pair struct{ a, b int }\nfunc f() { " + c.body + "\n_ = 0 }\nfunc main() {}\n"
			if c.want == "" {
				text = strings.Replace(text, "_ = 0", "_ = x", 1)
				c.want = "x used"
			}
			f, _ := factsOf(t, text)
			var got []string
			for v, i := range f.Vars {
				if v.Name() == "x" {
					got = append(got, told(i))
				}
			}
			if len(got) != 1 || "x"+got[0] != c.want {
				t.Errorf("x%s, want %s", strings.Join(got, "; x"), c.want)
			}
		})
	}
}

// told are the facts of a variable in words.
func told(v *Var) (s string) {
	for _, p := range []struct {
		is   bool
		word string
	}{{v.Captured, "captured"}, {v.Assigned, "assigned"}, {v.Addr, "addr"}, {v.Pointed, "pointed"}, {v.Used, "used"}} {
		if p.is {
			s += " " + p.word
		}
	}
	return s
}

func TestTypes(t *testing.T) {
	for _, c := range []struct{ name, body, growing, boxed, fields string }{
		{name: "a slice that is only read", body: "s := []int{1}; _ = s[0]"},
		{name: "append", body: "s := []int{1}; s = append(s, 2)", growing: "int"},
		{name: "a slice of an array", body: "var a [3]string; _ = a[1:]", growing: "string"},
		{name: "make with room", body: "_ = make([]bool, 0, 3)", growing: "bool"},
		{name: "the address of an element", body: "s := []int8{1}; _ = &s[0]", boxed: "int8"},
		{name: "the address of an element of an array in a struct", body: "var p pair; _ = &p.list[1]", boxed: "float64"},
		{name: "the address of a struct in a slice", body: "s := []pair{{}}; _ = &s[0]"},
		{name: "the address of a field", body: "var p pair; _ = &p.a", fields: "a"},
	} {
		t.Run(c.name, func(t *testing.T) {
			f, _ := factsOf(t, "type pair struct{ a, b int; list [2]float64 }\nfunc main() { "+c.body+" }\n")
			var fields []string
			for v := range f.BoxedFields {
				fields = append(fields, v.Name())
			}
			keys := func(m map[string]bool) string { return strings.Join(slices.Sorted(maps.Keys(m)), " ") }
			if g, b, x := keys(f.Growing), keys(f.BoxedElems), strings.Join(fields, " "); g != c.growing || b != c.boxed || x != c.fields {
				t.Errorf("growing %q, boxed %q, fields %q; want %q, %q, %q", g, b, x, c.growing, c.boxed, c.fields)
			}
		})
	}
}

func TestLiteralsKnowWhatTheyCapture(t *testing.T) {
	f, _ := factsOf(t, "func main() { a, b, c := 1, 2, 3; func() { _ = c; func() { _ = a; _ = c }() }(); _ = b }\n")
	var got []string
	for _, l := range f.Lits {
		var names []string
		for _, v := range l.Free {
			names = append(names, v.Name())
		}
		got = append(got, fmt.Sprint(names))
	}
	slices.Sort(got)
	if want := []string{"[a c]", "[c a]"}; !slices.Equal(got, want) {
		t.Errorf("%v, want %v", got, want)
	}
}

func TestWhatIsRefused(t *testing.T) {
	for _, c := range []struct{ name, body, want string }{
		{"nothing", "x := 1; _ = x", ""},
		{"the address of a byte", "s := []byte{1}; _ = &s[0]; _ = &s[0]", "a.go:2:36: address of an element of type byte: not supported; " +
			"a.go:2:47: address of an element of type byte: not supported"},
		{"a literal in the header of a loop", "for x := func() int { return 0 }(); x < 1; x++ {}",
			"a.go:2:24: function literal in the header of a loop: not supported"},
	} {
		t.Run(c.name, func(t *testing.T) {
			_, l := factsOf(t, "func main() { "+c.body+" }\n")
			var got []string
			for d := range l.Faulty {
				got = append(got, l.Faulty[d].Error())
				for _, e := range l.More[d] {
					got = append(got, e.Error())
				}
			}
			if s := strings.Join(got, "; "); s != c.want {
				t.Errorf("%s, want %s", s, c.want)
			}
		})
	}
}

func TestNamesOfCalls(t *testing.T) {
	_, l := factsOf(t, "import \"errors\"\nfunc g[T any](x T) {}\ntype t struct{}\nfunc (*t) m() {}\nfunc main() { g[int](1); g(2); (&t{}).m(); func() {}(); _ = errors.New(\"\") }\n")
	var got []string
	for _, d := range l.Roots[0].Files[0].Decls {
		if fd, ok := d.(*ast.FuncDecl); ok && fd.Name.Name == "main" {
			ast.Inspect(fd, func(n ast.Node) bool {
				if c, ok := n.(*ast.CallExpr); ok {
					got = append(got, CalleeName(l.Info, c))
				}
				return true
			})
		}
	}
	if want := []string{"main.g", "main.g", "(*main.t).m", "", "errors.New"}; !slices.Equal(got, want) {
		t.Errorf("%q, want %q", got, want)
	}
}
