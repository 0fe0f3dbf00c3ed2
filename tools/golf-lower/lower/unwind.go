package lower

import (
	"fmt"
	"go/token"
	"go/types"
	"strings"

	"golflower/load"
)

// Panics that can be recovered. The subset's own panics end the program. In a program that reaches recover or
// runtime.Goexit, a panic is a state of its goroutine, golf_g: the function that raises one returns, and so does each
// caller right after the call, so that the deferred calls of each run. A deferred call puts the panic aside while it
// runs, and recover takes it from there. Package tree gives golf_g to the functions that need it (tree/unwind.go).
//
// golf_P is a panic, or the end of a goroutine by Goexit; quits: a Goexit goes on once the panic is recovered. golf_D is
// what a deferred call has put aside.
const unwindText = `type golf_G struct {
p *golf_P
top *golf_D
direct *golf_D
}
type golf_P struct {
value *golf_any
exit bool
quits bool
site int
}
type golf_D struct {
p *golf_P
recovered bool
prev *golf_D
}
func golf_raise(v *golf_any, site int) {
if v == nil {
v = NILPANIC()
}
golf_g.p = &golf_P{value: v, site: site}
}
func golf_goexit() {
golf_g.p = &golf_P{exit: true, quits: true}
}
func golf_at(site int) {
if golf_g.p.site == 0 {
golf_g.p.site = site
}
}
func golf_recover(d *golf_D) *golf_any {
if d == nil || d.p == nil || d.p.exit || d.recovered {
return nil
}
d.recovered = true
return d.p.value
}
func golf_aside() *golf_D {
d := &golf_D{p: golf_g.p, prev: golf_g.top}
golf_g.top = d
golf_g.p = nil
return d
}
func golf_back(d *golf_D) {
golf_g.top = d.prev
if golf_g.p != nil {
if d.p != nil && d.p.quits {
golf_g.p.quits = true
}
return
}
if d.recovered == false {
golf_g.p = d.p
return
}
if d.p.quits {
golf_g.p = &golf_P{exit: true, quits: true}
}
}
func golf_end() {
p := golf_g.p
golf_g.p = nil
if p != nil && !p.exit {
DIE(FORMAT(p.value), p.site)
}
}`

// unwindHelpers writes the functions that raise and recover.
func (p *prog) unwindHelpers() {
	if !p.unwind {
		return
	}
	p.nilError() // for the functions that call by a tag
	r := strings.NewReplacer("NILPANIC", p.stdFunc("runtime", "nilPanic"), "DIE", p.stdFunc("golf", "Die"),
		"FORMAT", p.formatterOf(plain('P')).name)
	for _, l := range strings.Split(r.Replace(unwindText), "\n") {
		p.decls.add(token.NoPos, "%s", l)
	}
}

// unwinds: panics are raised in what is being lowered now. The functions of the lowering itself raise none.
func (f *fctx) unwinds() bool {
	if !f.p.unwind {
		return false
	}
	file := f.p.Fset.Position(f.p.pos).Filename
	return !strings.HasPrefix(file, load.Prefix+"golf/") && !strings.HasPrefix(file, load.Prefix+"runtime/")
}

// user: what is being lowered is in the user's files.
func (f *fctx) user() bool { return f.ln.IsValid() }

// site is the number of the place of what is being lowered, 0 outside of the user's files.
func (f *fctx) site() int {
	p := f.p
	if !f.user() {
		return 0
	}
	pos := f.p.pos
	n, ok := p.siteNumbers[pos]
	if !ok {
		p.sites = append(p.sites, pos)
		n = len(p.sites)
		p.siteNumbers[pos] = n
	}
	return n
}

// check returns if the call before has raised a panic.
func (f *fctx) check() {
	if !f.unwinds() {
		return
	}
	f.emit("if golf_raised() {")
	if n := f.site(); n > 0 {
		f.emit("golf_at(%d)", n)
	}
	f.leave()
	f.emit("}")
}

// leave returns from a function that panics. If it has deferred calls, one of them may recover: then the caller sees the
// results of now, or zero values.
func (f *fctx) leave() {
	p := f.p
	switch {
	case f.sig == nil || f.inner || f.sig.Results().Len() == 0:
		f.emit("return")
	case !f.defers:
		f.emit("return %s", p.nothing(p.result(f.sig)))
	case len(f.named) > 0:
		f.emit("return %s", f.namedResult())
	default:
		res := p.tuple(f.sig.Results())
		var zeros []string
		for i := 0; i < res.Len(); i++ {
			zeros = append(zeros, p.zero(res.At(i).Type()))
		}
		if len(zeros) == 1 {
			f.emit("return %s", zeros[0])
		} else {
			f.emit("return %s", p.pack(res, zeros))
		}
	}
}

// nilError is the error of a nil pointer as a value.
func (p *prog) nilError() string {
	return fmt.Sprintf("%s(%s)", p.stdFunc("runtime", "failure"), p.textConst(nilText))
}

// nothing is a value of a type of the subset that nobody reads.
func (p *prog) nothing(l string) string {
	switch l {
	case "":
		return ""
	case "int":
		return "0"
	case "bool":
		return "false"
	case "string":
		return `""`
	case "struct{}":
		return "struct{}{}"
	}
	return "nil"
}

// raise begins a panic with a value in an interface, and leaves.
func (f *fctx) raise(v string) {
	f.emit("golf_raise(%s, %d)", v, f.site())
	f.leave()
}

// runtimeError raises an error of the run time under a condition.
func (f *fctx) runtimeError(cond, text string) {
	if !f.unwinds() || !f.user() {
		return
	}
	f.emit("if %s {", cond)
	f.fail(f.p.textConst(text))
	f.emit("}")
}

// fail raises an error of the run time with a text that may be made at run time.
func (f *fctx) fail(text string) {
	f.raise(fmt.Sprintf("%s(%s)", f.p.stdFunc("runtime", "failure"), text))
}

const nilText = "runtime error: invalid memory address or nil pointer dereference"

// notNil raises the error of a nil pointer, and gives the pointer.
func (f *fctx) notNil(x string) string {
	if !f.unwinds() || !f.user() || x == "nil" {
		return x
	}
	x = f.pin(x)
	f.runtimeError(x+" == nil", nilText)
	return x
}

// nilChecked is notNil where golf itself raises no error, or another one: a pointer to an array is a slice there.
func (f *fctx) nilChecked(x string) string {
	if f.unwinds() || x == "nil" {
		return f.notNil(x)
	}
	x = f.pin(x)
	f.emit("if %s == nil {", x)
	f.emit("panic(%q)", nilText)
	f.emit("}")
	return x
}

// walk goes through fields, and raises the error of a nil pointer on the way.
func (f *fctx) walk(x string, t types.Type, path []int) (string, types.Type) {
	if !f.unwinds() || !f.user() {
		return f.p.walkPath(x, t, path)
	}
	for _, i := range path {
		if isPtr(t) {
			x = f.notNil(x)
		}
		x, t = f.p.walkPath(x, t, []int{i})
	}
	return x, t
}

// textf is the text of a format whose operands are integers: %d stands for the next one.
func (p *prog) textf(format string, operands ...string) string {
	parts := strings.Split(format, "%d")
	text := p.textConst(parts[0])
	for i, x := range operands {
		text = p.golf("Join", text, p.golf("Itoa", x))
		if parts[i+1] != "" {
			text = p.golf("Join", text, p.textConst(parts[i+1]))
		}
	}
	return text
}

// indexError raises the error of an index.
func (f *fctx) indexError(i, n string) {
	if !f.unwinds() || !f.user() {
		return
	}
	f.emit("if %s < 0 {", i)
	f.fail(f.p.textf("runtime error: index out of range [%d]", i))
	f.emit("}")
	f.emit("if %s >= %s {", i, n)
	f.fail(f.p.textf("runtime error: index out of range [%d] with length %d", i, n))
	f.emit("}")
}

// checked is the value of a call after which a panic is looked for.
func (f *fctx) checked(x string, sig *types.Signature) string {
	if !f.unwinds() || f.p.result(sig) == "" {
		return x
	}
	t := f.temp(x)
	f.check()
	return t
}
