package desugar

import (
	"bytes"
	"go/format"
	"strings"
	"testing"

	"golflower/load"
)

// desugared is the text of the statements of a function f after the pass.
func desugared(t *testing.T, version, decls, stmts string) (string, error) {
	t.Helper()
	text := "package main\n" + decls + "\nfunc main() {}\nfunc f() int {\n" + stmts + "\nreturn 0\n}\n"
	p := &load.Program{Packages: map[string]*load.Package{
		"main": {Files: []load.Source{{Name: "a.go", Text: []byte(text)}}, Version: version},
	}, Roots: []string{"main"}}
	l, err := load.New(p)
	if err != nil {
		t.Fatal(err)
	}
	k := l.Roots[0]
	Package(l, k)
	decl := k.Files[0].Decls[len(k.Files[0].Decls)-1]
	if err := l.Faulty[decl]; err != nil {
		return "", err
	}
	var out bytes.Buffer
	if err := format.Node(&out, l.Fset, decl); err != nil {
		t.Fatal(err)
	}
	return strings.Join(strings.Fields(out.String()), " "), nil
}

const count = "func count(yield func(int) bool) {}"

func TestARangeOverAFunctionIsACall(t *testing.T) {
	for stmts, want := range map[string][]string{
		"for range count { continue }":           {"count(func() {", "return true"},
		"for range count { break }":              {"{ loop = 1 return false }"},
		"for range count { return 7 }":           {"{ result = 7 loop = 3 return false }", "if loop == 3 { return result }"},
		"a: for { for range count { break a } }": {"{ loop = 4 return false }", "if loop == 4 { break a }"},
	} {
		got, err := desugared(t, "", count, stmts)
		if err != nil {
			t.Errorf("%s: %v", stmts, err)
		}
		for _, w := range append(want, "panic(\"runtime error: range function continued iteration after whole loop exit\")") {
			if !strings.Contains(got, w) {
				t.Errorf("%s: no %q in %s", stmts, w, got)
			}
		}
	}
}

func TestWhatARangeOverAFunctionRefuses(t *testing.T) {
	for stmts, want := range map[string]string{
		"for range count { defer f() }": "a.go:5:19: defer in a range over a function: not supported",
		"for range count { recover() }": "a.go:5:19: recover in a range over a function: not supported",
	} {
		if _, err := desugared(t, "", count, stmts); err == nil || err.Error() != want {
			t.Errorf("%s: %v, want %s", stmts, err, want)
		}
	}
}

// A loop whose variables matter is changed in old versions only.
func TestLoopsOfOldVersionsHaveTheirVariablesOnce(t *testing.T) {
	loop := "for i := 0; i < 3; i++ { func() { i++ }() }"
	for version, want := range map[string]string{"go1.21": "i := 0 for ; i < 3; i++ {", "go1.22": "for i := 0; i < 3; i++ {"} {
		if got, err := desugared(t, version, "", loop); err != nil || !strings.Contains(got, want) {
			t.Errorf("%s: %s, %v", version, got, err)
		}
	}
	got, err := desugared(t, "go1.20", "", "a: for _, x := range []int{1} { func() { x++ }(); continue a }")
	if err != nil || !strings.Contains(got, "for _, x = range []int{1} {") || !strings.Contains(got, "var x a: for") {
		t.Errorf("%s, %v", got, err)
	}
	if got, _ := desugared(t, "go1.20", "", "for i := 0; i < 3; i++ { _ = i }"); !strings.Contains(got, "for i := 0;") {
		t.Errorf("a loop without a literal: %s", got)
	}
}
