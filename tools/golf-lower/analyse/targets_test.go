package analyse

import (
	"go/ast"
	"go/types"
	"slices"
	"strings"
	"testing"

	"golflower/load"
)

// Each operand that becomes a value of an interface is noted, and no other one.
func TestTargets(t *testing.T) {
	for body, want := range map[string]string{
		"f(1, 2)":                             "2",
		"v(1, 2, 3)":                          "2 3",
		"v(1, list...)":                       "",
		"x = 1; n = 2":                        "1",
		"x, n = 1, 2":                         "1",
		"var p, q any = 1, x; _, _ = p, q":    "1 x",
		"c <- 3":                              "3",
		"_ = any(4)":                          "4",
		"_ = x == 5":                          "5",
		"switch x { case 6: }":                "6",
		"_ = m[7]":                            "7",
		"_ = []any{8, x}":                     "8 x",
		"_ = map[any]int{9: 1}":               "9",
		"_ = box{1, 2}; _ = &box{n: 1, x: 3}": "2 3",
		"_ = []*box{{1, 2}}":                  "2",
		"_ = append(list, 1)":                 "1",
		"panic(1)":                            "1",
		"return 1, 2":                         "2",
		"func() { x = 1 }()":                  "",
	} {
		got := targetsOf(t, body)
		if strings.Join(got, " ") != want {
			t.Errorf("%s: %v, want %s", body, got, want)
		}
	}
}

// targetsOf are the operands that are noted in a body, sorted.
func targetsOf(t *testing.T, body string) []string {
	t.Helper()
	const decls = `
type box struct { n int; x any }
var x any
var n int
var list []any
var m map[any]int
var c chan any
func f(int, any) {}
func v(int, ...any) {}
func body() (n int, y any) { `
	l, err := load.New(load.Single([]load.Source{{Name: "a.go", Text: []byte("package main\n" + decls + body + "; return }\nfunc main() {}\n")}}))
	if err != nil {
		t.Fatal(err)
	}
	var got []string
	for _, d := range l.Roots[0].Files[0].Decls {
		fd, ok := d.(*ast.FuncDecl)
		if !ok || fd.Name.Name != "body" {
			continue
		}
		results := l.Info.Defs[fd.Name].(*types.Func).Signature().Results()
		Targets(l.Info, fd.Body, results, func(e ast.Expr, to types.Type) {
			if text := types.ExprString(e); !slices.Contains(got, text) {
				got = append(got, text)
			}
		})
	}
	slices.Sort(got)
	return got
}
