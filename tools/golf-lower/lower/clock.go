package lower

import (
	"fmt"
	"go/ast"
	"go/token"
	"go/types"
	"strings"

	"golflower/load"
)

// The clock. Time passes only while all goroutines wait. The group golf_busy counts those that do not: a goroutine takes
// itself out before what may block and puts itself back behind it. The clock waits for the group, which costs no turn.
//
// A goroutine that has been woken is counted again only when it has had some turns. So the clock looks a second time after
// some turns of its own: golf_moved tells that a goroutine has come back meanwhile.
const clockText = `var golf_busy *sync.WaitGroup = &sync.WaitGroup{}
var golf_moved bool
func golf_quiet() {
for {
golf_moved = false
golf_busy.Wait()
for i := 0; i < 12; i++ {
}
golf_busy.Wait()
if !golf_moved {
return
}
}
}`

// clockFile is the file with the functions of the clock.
const clockFile = load.Prefix + "time/clock.go"

// clockHelpers writes the functions of the clock.
func (p *prog) clockHelpers() {
	if !p.clock {
		return
	}
	p.imports["sync"] = true
	for _, l := range strings.Split(clockText, "\n") {
		if strings.HasPrefix(l, "var ") {
			p.globals.add(token.NoPos, "%s", l)
		} else {
			p.decls.add(token.NoPos, "%s", l)
		}
	}
}

// announces: the goroutine of what is being lowered is counted. The clock itself and what the lowering needs are not.
func (f *fctx) announces() bool {
	if !f.p.clock {
		return false
	}
	file := f.p.Fset.Position(f.p.pos).Filename
	return file != clockFile && !strings.HasPrefix(file, load.Prefix+"golf/")
}

// away takes the goroutine out of those that do not wait.
func (f *fctx) away() {
	if f.announces() {
		f.emit("golf_busy.Done()")
	}
}

// backAgain puts the goroutine back.
func (f *fctx) backAgain() {
	if f.announces() {
		f.emit("golf_busy.Add(1)")
		f.emit("golf_moved = true")
	}
}

// settle evaluates an operand of what can block before the goroutine is taken out: it may call what blocks itself.
func (f *fctx) settle(x string) string {
	if !f.announces() || x == "nil" {
		return x
	}
	return f.pin(x)
}

// waiting runs g, which emits what can block.
func (f *fctx) waiting(g func()) {
	f.away()
	g()
	f.backAgain()
}

// blocking are the methods of sync that can block.
var blocking = map[string]bool{
	"(*sync.Mutex).Lock": true, "(*sync.RWMutex).Lock": true, "(*sync.RWMutex).RLock": true,
	"(*sync.WaitGroup).Wait": true, "(*sync.Cond).Wait": true,
}

// blockingCall is a method of sync that can block as a call of one function, which tells that the goroutine waits.
func (p *prog) blockingCall(x, native, name string) string {
	fn := p.aux("wait", native+" "+name, func(fn string, b *buffer) {
		b.add(0, "func %s(x *%s) {", fn, native)
		b.add(0, "golf_busy.Done()")
		b.add(0, "x.%s()", name)
		b.add(0, "golf_busy.Add(1)")
		b.add(0, "golf_moved = true")
		b.add(0, "}")
	})
	return fn + "(" + x + ")"
}

// nativeStmt is a statement that calls a method of sync which can block, at the user's line; false if it is none.
func (f *fctx) nativeStmt(c *ast.CallExpr, fn *types.Func) bool {
	p := f.p
	if !p.clock || !blocking[fn.FullName()] {
		return false
	}
	p.rawNative = true
	x := f.call(c)
	p.rawNative = false
	f.waiting(func() { f.emit("%s", x) })
	return true
}

// timers are the calls of time.AfterFunc in the user's files. The goroutine that a timer starts is started at the line of
// its call.
type timers struct {
	calls  []token.Pos
	launch string // the function that starts the goroutine of a call
}

// afterFunc is a call of time.AfterFunc, with its number.
func (f *fctx) afterFunc(fn *types.Func, c *ast.CallExpr) string {
	p := f.p
	args := f.args(fn.Signature(), c)
	p.timers.calls = append(p.timers.calls, p.orig(c.Pos()))
	return fmt.Sprintf("%s(%s, %d)", p.stdFunc("time", "afterFunc"), strings.Join(args, ", "), len(p.timers.calls))
}

// launch is the function that starts what a timer calls.
func (p *prog) launch() string {
	if p.timers.launch == "" {
		p.timers.launch = p.fresh("golf_launch")
		p.clockwork[p.timers.launch] = true
		p.stdFunc("time", "run")
	}
	return p.timers.launch
}

// launchTable writes the function: a line for each call, which has its place.
func (p *prog) launchTable() {
	if p.timers.launch == "" {
		return
	}
	sig := types.NewSignatureType(nil, nil, nil, nil, nil, false)
	start := fmt.Sprintf("go %s(f)", p.stdFunc("time", "run"))
	b := &p.decls
	b.add(0, "func %s(call int, f %s) {", p.timers.launch, p.lt(sig))
	for i, pos := range p.timers.calls {
		b.add(0, "if call == %d {", i+1)
		b.add(pos, "%s", start)
		b.add(0, "return")
		b.add(0, "}")
	}
	b.add(0, "%s", start)
	b.add(0, "}")
}
