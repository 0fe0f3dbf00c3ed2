package lower

import (
	"fmt"
	"strings"
)

// Conditions on something else than a *sync.Mutex: a condition of the subset with a mutex of its
// own. A waiter holds that mutex from before it unlocks L until it waits, so that no signal is lost.

func (p *prog) condStruct() string {
	p.imports["sync"] = true
	p.usesAny = true
	return p.aux("golf", "cond", func(name string, b *buffer) {
		b.add(0, "type %s struct {", name)
		b.add(0, "L *golf_any")
		b.add(0, "m *sync.Mutex")
		b.add(0, "c *sync.Cond")
		b.add(0, "}")
		b.add(0, "func %s_new(l *golf_any) *%s {", name, name)
		b.add(0, "m := &sync.Mutex{}")
		b.add(0, "return &%s{L: l, m: m, c: sync.NewCond(m)}", name)
		b.add(0, "}")
		b.add(0, "func %s_signal(c *%s) {", name, name)
		b.add(0, "c.m.Lock()")
		b.add(0, "c.c.Signal()")
		b.add(0, "c.m.Unlock()")
		b.add(0, "}")
		b.add(0, "func %s_broadcast(c *%s) {", name, name)
		b.add(0, "c.m.Lock()")
		b.add(0, "c.c.Broadcast()")
		b.add(0, "c.m.Unlock()")
		b.add(0, "}")
	})
}

func (p *prog) condNew(l string) string { return fmt.Sprintf("%s_new(%s)", p.condStruct(), l) }

// condCall is a method that is no statement of its own; Wait is (condWait).
func (p *prog) condCall(x, name string) string {
	if name == "Wait" {
		p.refuse("Wait of a condition on something else than a *sync.Mutex, but as a statement")
	}
	return fmt.Sprintf("%s_%s(%s)", p.condStruct(), strings.ToLower(name), x)
}

// condWait is c.Wait(), at the user's line.
func (f *fctx) condWait(x string) {
	x = f.pin(x)
	f.emit("%s.m.Lock()", x)
	f.locker(x+".L", "Unlock")
	f.waiting(func() { f.emit("%s.c.Wait()", x) })
	f.emit("%s.m.Unlock()", x)
	f.locker(x+".L", "Lock")
}

// locker is l.Lock() or l.Unlock() on an interface: the types of sync are called at the user's line,
// so that a wait is reported there.
func (f *fctx) locker(x, name string) {
	p := f.p
	x = f.pin(x)
	pk := p.Loaded("sync").Types
	ptr := func(n string) *dyn { return p.dynOf(pointerTo(pk.Scope().Lookup(n).Type())) }
	m, rw, rl := ptr("Mutex"), ptr("RWMutex"), ptr("rlocker")
	d := p.dispatcherOf(methodOf(pk.Scope().Lookup("Locker").Type(), name))
	call := func(format string, args ...any) {
		if name == "Lock" {
			f.waiting(func() { f.emit(format, args...) })
		} else {
			f.emit(format, args...)
		}
	}
	f.emit("if %s.tag == %d {", x, m.tag)
	call("%s.%s.%s()", x, m.field(), name)
	f.emit("} else if %s.tag == %d {", x, rw.tag)
	call("%s.%s.%s()", x, rw.field(), name)
	f.emit("} else if %s.tag == %d {", x, rl.tag)
	call("%s.%s.rw.R%s()", x, rl.field(), name)
	f.emit("} else {")
	f.emit("%s(%s)", d.name, x)
	f.emit("}")
}
