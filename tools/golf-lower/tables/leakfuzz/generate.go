package main

import (
	"fmt"
	"math/rand"
	"strings"
)

// generator makes a concurrent program at random: goroutines that send, receive, lock and wait, with deadlines.
//
// The program has no choice but that of the schedule. main waits for nobody without a limit of time, and sleeps at its end,
// so that the others come to where they end or block. What they wait on is in no global variable. So what blocks then blocks
// for ever, and nobody else refers to what it waits on.
type generator struct {
	r      *rand.Rand
	sb     strings.Builder
	indent int
	next   int

	chans   []channel
	cond    bool
	context bool
	dones   int // calls of Done
}

// channel is a channel of the program. One that is closed is closed once, and nobody sends on it.
type channel struct {
	name   string
	closed bool
}

// source is the text of a program. The other goroutines call step before what may block; end is how step is declared, and
// imports one more import, or an empty line.
func source(seed int64, imports, end string) string {
	g := &generator{r: rand.New(rand.NewSource(seed))}
	g.line("package main")
	g.line("")
	g.line("import (")
	for _, path := range []string{"context", "sync", "time"} {
		g.line("\t%q", path)
	}
	g.line(")")
	g.line("%s", imports)
	g.main()
	g.line("")
	g.line("%s", end)
	return g.sb.String()
}

func (g *generator) line(format string, args ...any) {
	if len(args) > 0 {
		format = fmt.Sprintf(format, args...)
	}
	g.sb.WriteString(strings.Repeat("\t", g.indent) + format + "\n")
}

func (g *generator) one(list ...string) string { return list[g.r.Intn(len(list))] }

func (g *generator) name(base string) string {
	g.next++
	return fmt.Sprintf("%s%d", base, g.next)
}

// main writes the function main: what there is, the goroutines, what main does beside them, and its sleep.
func (g *generator) main() {
	body := &generator{r: g.r, indent: 1, context: g.r.Intn(3) == 0, cond: g.r.Intn(4) == 0}
	for i := range 2 + g.r.Intn(2) {
		body.chans = append(body.chans, channel{fmt.Sprintf("c%d", i), g.r.Intn(5) == 0})
	}
	for _, c := range body.chans {
		body.line("%s := make(chan int%s)", c.name, g.one("", "", ", 1", ", 2"))
		body.line("_ = %s", c.name)
	}
	starts := body.r.Intn(3)
	for range 2 + g.r.Intn(3) {
		body.start(2)
		if starts == 0 {
			body.aside()
		}
	}
	for range g.r.Intn(3) {
		body.aside()
	}
	for _, c := range body.chans {
		if c.closed && g.r.Intn(3) > 0 {
			body.line("close(%s)", c.name)
		}
	}
	g.line("func main() {")
	g.line("\tmu, rw, wg := &sync.Mutex{}, &sync.RWMutex{}, &sync.WaitGroup{}")
	g.line("\tcond := sync.NewCond(mu)")
	g.line("\tctx, cancel := context.WithTimeout(context.Background(), %d*time.Millisecond)", 1+g.r.Intn(3))
	g.line("\tdefer time.Sleep(20 * time.Millisecond)")
	g.line("\t_, _, _, _, _ = rw, wg, cond, ctx, cancel")
	if n := body.dones + g.r.Intn(2); n > 0 {
		g.line("\twg.Add(%d)", n)
	}
	g.sb.WriteString(body.sb.String())
	g.line("}")
}

// start starts a goroutine, which may start others.
func (g *generator) start(depth int) {
	dones := g.dones
	if g.r.Intn(5) == 0 {
		g.line("for range 2 {")
		g.indent++
		defer func() {
			g.indent--
			g.line("}")
			g.dones += g.dones - dones
		}()
	}
	g.line("go func() {")
	g.indent++
	if g.r.Intn(3) == 0 && depth > 1 {
		g.dones++
		g.line("defer wg.Done()")
	}
	for range 1 + g.r.Intn(3) {
		if depth > 1 && g.r.Intn(6) == 0 {
			g.start(depth - 1)
		} else {
			g.operation(2)
		}
	}
	g.indent--
	g.line("}()")
}

// open is a channel on which somebody may send.
func (g *generator) open() string {
	var list []string
	for _, c := range g.chans {
		if !c.closed {
			list = append(list, c.name)
		}
	}
	if len(list) == 0 {
		return "(chan int)(nil)"
	}
	return g.one(list...)
}

// any is a channel from which somebody receives.
func (g *generator) any() string { return g.chans[g.r.Intn(len(g.chans))].name }

// operation is what a goroutine does; depth is how deep locks are held.
func (g *generator) operation(depth int) {
	g.line("step()")
	switch g.r.Intn(16) {
	case 0, 1, 2:
		g.line("%s <- %d", g.open(), g.r.Intn(3))
	case 3, 4:
		g.line("<-%s", g.any())
	case 5:
		g.line("if v := <-%s; v == %d {", g.any(), g.r.Intn(2))
		g.line("\treturn")
		g.line("}")
	case 6:
		g.line("for v := range %s {", g.any())
		g.line("\t_ = v")
		g.line("}")
	case 7, 8, 9:
		g.choice()
	case 10, 11:
		g.locked("mu", "Lock", "Unlock", depth)
	case 12:
		if g.r.Intn(2) == 0 {
			g.locked("rw", "RLock", "RUnlock", depth)
		} else {
			g.locked("rw", "Lock", "Unlock", depth)
		}
	case 13:
		g.line("wg.Wait()")
	case 14:
		g.line("time.Sleep(%d * time.Microsecond)", 100*(1+g.r.Intn(9)))
	default:
		g.waitOrSignal()
	}
}

// locked does something with a lock held, and may return with it.
func (g *generator) locked(name, lock, unlock string, depth int) {
	g.line("%s.%s()", name, lock)
	if depth > 0 && g.r.Intn(2) == 0 {
		g.operation(depth - 1)
	}
	if g.r.Intn(6) == 0 {
		g.line("if len(%s) > 0 {", g.any())
		g.line("\treturn")
		g.line("}")
	}
	g.line("%s.%s()", name, unlock)
}

// waitOrSignal waits for the context or the condition, or signals the condition.
func (g *generator) waitOrSignal() {
	switch {
	case g.context:
		g.line("<-ctx.Done()")
	case g.cond && g.r.Intn(2) == 0:
		g.line("mu.Lock()")
		g.line("cond.Wait()")
		g.line("mu.Unlock()")
	default:
		g.line("cond.%s()", g.one("Signal", "Broadcast"))
	}
}

// choice is a select.
func (g *generator) choice() {
	g.line("select {")
	for range 1 + g.r.Intn(2) {
		if g.r.Intn(2) == 0 {
			g.line("case %s <- 1:", g.open())
		} else {
			g.line("case <-%s:", g.any())
			if g.r.Intn(4) == 0 {
				g.line("\treturn")
			}
		}
	}
	switch g.r.Intn(5) {
	case 0:
		g.line("case <-time.After(%d * time.Microsecond):", 200*(1+g.r.Intn(5)))
	case 1:
		g.line("case <-ctx.Done():")
	case 2:
		g.line("default:")
	}
	g.line("}")
}

// aside is what main does beside the goroutines. It never waits for long.
func (g *generator) aside() {
	switch g.r.Intn(6) {
	case 0, 1:
		g.line("select {")
		g.line("case <-%s:", g.any())
		g.line("case <-time.After(%d * time.Microsecond):", 500*(1+g.r.Intn(4)))
		g.line("}")
	case 2:
		g.line("select {")
		g.line("case %s <- 2:", g.open())
		g.line("case <-time.After(time.Millisecond):")
		g.line("}")
	case 3:
		g.line("cancel()")
	case 4:
		g.line("time.Sleep(%d * time.Microsecond)", 300*(1+g.r.Intn(5)))
	default:
		g.line("cond.Broadcast()")
	}
}
