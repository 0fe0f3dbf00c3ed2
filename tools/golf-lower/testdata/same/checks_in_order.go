package main

import (
	"errors"
	"fmt"

	"sort"
	"strings"
)

// What may fail is looked at in its turn, wherever it stands.

var xs = []int{1, 2, 3}
var m map[string]int
var log []string

func say(s string, n int) int { log = append(log, fmt.Sprint(s, n)); return n }

func try(name string, f func()) {
	defer func() {
		if r := recover(); r != nil {
			fmt.Println(name, "recovered", r)
			if e, ok := r.(error); ok {
				fmt.Println(e.Error(), errors.As(e, new(interface{ RuntimeError() })))
			}
		}
		fmt.Println(name, log)
		log = nil
	}()
	f()
}

type pt struct{ x, y int }

func (p *pt) inc() int { p.x++; return p.x }

func main() {
	n := 5
	try("for", func() {
		for i := 0; xs[i] < 9; i++ {
			say("i", i)
		}
	})
	try("switch", func() {
		switch 2 {
		case xs[1]:
			say("two", 2)
		case xs[n]:
			say("never", 0)
		}
		switch 7 {
		case xs[0], say("s", 7), xs[n]:
			say("seven", 7)
		}
		switch {
		case xs[0] == 2:
		case len(xs) > n && xs[n] == 1, xs[2] == 3:
			say("three", 3)
		case xs[n] > 0:
		}
		switch xs[n] {
		}
	})
	try("and", func() {
		if len(xs) > n && xs[n] > 0 || say("or", 1) == 1 && xs[0] == 1 {
			say("in", 1)
		}
		if b := n < len(xs) && xs[n] == say("no", 1); !b || xs[n] == 1 {
			say("b", 0)
		}
	})
	try("if init", func() {
		if v := xs[2]; v > 3 {
		} else if w := v / (n - 5 + 1); w == 3 {
			say("w", w)
		} else if xs[w] == 0 {
		}
		if v := say("a", 1); v == 2 {
		} else if v := xs[v] / (n - 5); v > 0 {
			say("c", v)
		}
	})
	try("return", func() {
		f := func() (int, error) { return xs[say("i", 1)], errors.New("e") }
		a, err := f()
		say(err.Error(), a)
		g := func() (r int, err error) { defer func() { r = say("d", 9) }(); return xs[n], nil }
		g()
	})
	try("range", func() {
		for i, x := range xs[say("lo", 1):] {
			say("x", x/(i-1))
		}
	})
	try("nested", func() {
		ps := []*pt{{1, 2}, nil}
		ps[0].x, ps[1].y = ps[0].inc(), say("y", 3)
	})
	try("map", func() { m[fmt.Sprint(say("k", 1))] = say("v", 2) })
	try("append", func() { xs = append(xs[:say("a", 1)], xs[say("b", 2):xs[n-5+2]]...); _ = xs[4] })
	try("labels", func() {
	outer:
		for i := range 3 {
			for j := range 3 {
				if i == 1 {
					continue outer
				}
				if xs[i+j] == 0 {
					break outer
				}
				say("ij", i*10+j)
			}
		}
	})
	try("sort", func() {
		sort.Slice(xs, func(i, j int) bool { return xs[i] > xs[j+10] })
	})
	try("strings", func() { say(strings.Map(func(r rune) rune { return r / rune(n-5) }, "a"), 1) })
	try("goto", func() {
		i := 0
	again:
		i++
		if i < 3 {
			goto again
		}
		say("g", i)
		var e error = (*myErr)(nil)
		say(fmt.Sprint(e == nil), 0)
		var p *pt
		say("p", p.inc())
	})
	func() {
		defer func() { fmt.Println("outer", recover()) }()
		defer func() {
			defer func() { fmt.Println("inner", recover()) }()
			var a []int
			_ = a[n]
		}()
		var a [2]int
		a[n%3]++
		_ = a[n]
	}()
	c := make(chan int, 1)
	try("select", func() {
		select {
		case c <- xs[say("i", 0)] / (n - 5):
		default:
		}
	})
	try("closure", func() {
		fs := []func(int) int{func(k int) int { return k / (n - 5) }, nil}
		defer func() { say("deferred", 1); fs[1](1) }()
		fs[0](3)
	})
	try("string", func() { s := "héy"; say(s[1:3], int(s[say("i", 1)])); _ = s[n:] })
	try("assert", func() {
		var a any = pt{1, 2}
		if p, ok := a.(*pt); !ok {
			say("not", 0)
			_ = p
		}
		_ = a.(fmt.Stringer)
	})
}

type myErr struct{}

func (*myErr) Error() string { return "mine" }
