package main

import "fmt"

type box struct {
	n    int
	s    []int
	m    map[string]int
	next *box
}

var (
	global = 1
	b      = &box{n: 1, s: []int{1, 2, 3}, m: map[string]int{"a": 1}}
	log    []string
)

func change() int {
	log = append(log, "change")
	global += 10
	b.n += 100
	b.s[0] += 7
	b.m["a"] += 1000
	return 5
}

func swap() int {
	b = &box{n: -1, s: []int{9, 9, 9}, m: map[string]int{"a": -9}}
	return 1
}

func (x *box) change() int { return change() }

func (x *box) get() int { return x.n }

func (x box) value() int { return x.n }

func show(xs ...any) { fmt.Println(append(xs, global, b.n, b.s, b.m, log)...) }

func three(a, b, c int) string { return fmt.Sprint(a, " ", b, " ", c) }

func named() (n int) {
	defer func() { n++ }()
	f := func() int { n = 50; return 1 }
	return n + f()
}

func pair() (int, int) {
	n := 1
	f := func() int { n = 7; return 2 }
	return n, f()
}

type point struct{ x, y int }

func try(f func()) {
	defer func() {
		if r := recover(); r != nil {
			fmt.Println("recovered:", r, log)
		}
	}()
	f()
}

func main() {
	show(three(global, change(), global))
	show(three(b.n, change(), b.s[0]))
	show(global+change(), b.n*2-change()+b.n)
	x := global + change() + global
	show(x)
	local := 3
	set := func() int { local = 30; return 4 }
	show(local, set(), local)
	local = 3
	show(point{local, set()}, [2]int{local, set()}, []int{local, set()})
	show(map[int]int{local: set(), local + 1: global})
	local = 0
	b.s[local] = change()
	show()
	i := 0
	next := func() int { i++; return i }
	var a [5]int
	a[i] = next()
	a[i], a[next()] = next(), i
	show(a, i)
	i = 0
	a[next()] += next() * 10
	show(a)
	show(len(b.s) > 2 && b.s[0] > change() || b.n > 0)
	show(b.m["a"], change(), b.m["a"])
	show(b.n, b.change(), b.value(), b.get())
	show(named())
	show(pair())
	var v any = 3
	setAny := func() int { v = "text"; return 1 }
	show(v.(int), setAny())
	v = b
	other := func() int { v = &box{n: 77}; return 1 }
	show(v.(*box).n, other())
	show(b.s[1:], swap(), b.s[1:])
	c := make(chan int, 3)
	c <- 1
	c <- 2
	show(<-c, len(c), <-c, len(c))
	if b.n == change()-6 {
		show("equal")
	}
	switch b.n {
	case change() * 20, b.n:
		show("case")
	}
	for k := 0; b.n > change()*60 && k < 3; k++ {
		show(k)
	}
	global += change()
	b.n -= change()
	b.m["a"] += change()
	show()
	var none *box
	log = nil
	try(func() { show(none.n, change()) })
	try(func() { none.n = change() })
	try(func() { b.s[9] = change() })
	try(func() { show(b.s[9], change()) })
	try(func() { show(1/(global-global), change()) })
	try(func() { b.next.n, global = 1, change() })
	p := &point{1, 2}
	grow := func() int { *p = point{8, 9}; return 3 }
	q := []point{*p, {grow(), 0}}
	show(q, *p)
	s := "ab"
	longer := func() string { s += "c"; return "!" }
	show(s+longer()+s, s)
	defer func(a, b int) { fmt.Println("deferred", a, b) }(global, change())
	y, z := global, change()
	show(y, z)
	y, ok := b.m["zz"], change() > 3
	show(y, ok)
}
