package tree

import (
	"strings"
	"testing"
)

// helpers are the functions of the lowering that the pass looks for, as far as a test needs them.
const helpers = `
func golf_raise(v int) {
	golf_g.p = v
}
func golf_recover(d *golf_D) int {
	return d.p
}
func golf_end() {
	golf_g.p = 0
}
`

// unwound is the text of some functions after the pass.
func unwound(t *testing.T, u Unwinding, funcs string) string {
	t.Helper()
	f := parse(t, "package main\n"+strings.TrimSpace(funcs)+helpers)
	f.Unwind(u)
	return printed(f)
}

// contains reports the lines that a text lacks.
func contains(t *testing.T, text string, lines ...string) {
	t.Helper()
	for _, l := range lines {
		if !strings.Contains(text, l) {
			t.Errorf("no %q in\n%s", l, text)
		}
	}
}

func TestOnlyFunctionsThatCanPanicGetTheState(t *testing.T) {
	got := unwound(t, Unwinding{}, `
func main() {
f(1)
if golf_raised() {
return
}
g(2)
if golf_raised() {
return
}
}
func f(a int) {
golf_raise(a)
return
}
func g(a int) {
}`)
	contains(t, got, "func main() {\n\tgolf_g := &golf_G{}\n\tf(golf_g, 1)\n\tif golf_g.p != nil {\n\t\treturn\n\t}\n\tg(2)\n}",
		"func f(golf_g *golf_G, a int) {\n\tgolf_raise(golf_g, a)\n\treturn\n}", "func g(a int) {\n}")
}

func TestADeferredCallPutsThePanicAside(t *testing.T) {
	got := unwound(t, Unwinding{}, `
func main() {
defer f(1)
defer g(2)
}
func f(a int) {
_ = golf_recover()
}
func g(a int) {
}`)
	contains(t, got, "\tdefer golf_defer_f(golf_g, 1)\n\tdefer g(2)\n",
		"func golf_defer_f(golf_g *golf_G, a int) {\n\tgolf_d := golf_aside(golf_g)\n\tgolf_g.direct = golf_d\n\tf(golf_g, a)\n\tgolf_back(golf_g, golf_d)\n}",
		"func f(golf_g *golf_G, a int) {\n\tgolf_direct := golf_g.direct\n\tgolf_g.direct = nil\n\t_ = golf_recover(golf_direct)\n}")
}

// recover works in the function that is called by its tag, and not in one that this function calls.
func TestAFunctionWithoutRecoverForgetsWhoDeferredIt(t *testing.T) {
	got := unwound(t, Unwinding{Dispatchers: map[string]bool{"fn_call": true}}, `
func main() {
defer fn_call(1)
}
func fn_call(tag int) {
if tag == 1 {
f()
return
}
g()
}
func f() {
_ = golf_recover()
}
func g() {
h()
}
func h() {
_ = golf_recover()
}`)
	contains(t, got, "\tgolf_g.direct = golf_d\n\tfn_call(golf_g, tag)\n",
		"func g(golf_g *golf_G) {\n\tgolf_g.direct = nil\n\th(golf_g)\n}",
		"func f(golf_g *golf_G) {\n\tgolf_direct := golf_g.direct\n")
}

func TestAGoroutineHasAStateOfItsOwn(t *testing.T) {
	got := unwound(t, Unwinding{}, `
func main() {
go f(1)
go g(2)
}
func f(a int) {
golf_raise(a)
}
func g(a int) {
}`)
	contains(t, got, "\tgo golf_go_f(1)\n\tgo g(2)\n",
		"func golf_go_f(a int) {\n\tgolf_g := &golf_G{}\n\tf(golf_g, a)\n\tgolf_end(golf_g)\n}")
}

func TestDropQuestions(t *testing.T) {
	f := parse(t, inMain("f()\nif golf_raised() {\nreturn\n}\nfor {\nif golf_raised() {\nreturn\n}\n}"))
	f.DropQuestions()
	if got, want := body(printed(f)), "f()\nfor {\n}\n"; got != want {
		t.Errorf("%q, want %q", got, want)
	}
}

func TestGoroutinesAreCounted(t *testing.T) {
	f := parse(t, "package main\nfunc main() {\nif a {\ngo f(1)\n}\ngo clock()\n}\nfunc f(a int) {\n}\nfunc clock() {\n}")
	f.Count("clock")
	contains(t, printed(f),
		"func main() {\n\tgolf_busy.Add(1)\n\tif a {\n\t\tgolf_busy.Add(1)\n\t\tgo golf_run_f(1)\n\t}\n\tgo clock()\n}",
		"func golf_run_f(a int) {\n\tf(a)\n\tgolf_busy.Done()\n}")
}

// A function that waits before it calls another one has parameters of its own: each of the two gets the state once.
func TestALateFunctionGetsTheStateOnce(t *testing.T) {
	f := parse(t, "package main\nfunc main() {\ngo f(1)\n}\nfunc f(a int) {\ngolf_g.p = nil\n}\nfunc wait() {\n}")
	f.Late("wait", func(s string) string { return s })
	f.Unwind(Unwinding{})
	got := printed(f)
	if strings.Contains(got, "golf_g *golf_G, golf_g *golf_G") || strings.Count(got, "(golf_g *golf_G, a int)") != 2 {
		t.Errorf("got\n%s", got)
	}
}
