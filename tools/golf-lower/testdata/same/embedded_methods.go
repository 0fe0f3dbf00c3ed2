package main

import "fmt"

type A struct{ n int }

func (a A) Get() int     { return a.n }
func (a *A) Inc()        { a.n++ }
func (a A) Name() string { return "A" }

type B struct {
	A
	n string
}

func (b B) Name() string { return "B" + b.A.Name() }

type C struct {
	*B
	x int
}
type Getter interface{ Get() int }
type Incer interface {
	Getter
	Inc()
}
type D struct{ Getter }
type E struct {
	D
	Incer
}

func (e E) Get() int { return -e.D.Get() }

type F func(int) int

func (f F) Call(n int) int { return f(n) + 1 }

type L []int

func (l L) Len() int   { return len(l) }
func (l *L) Add(n int) { *l = append(*l, n) }

type M map[string]int

func (m M) Set(k string) { m[k]++ }

type N int

func (n N) String() string { return fmt.Sprintf("N(%d)", int(n)) }
func (n *N) Up()           { *n++ }

func main() {
	b := B{A{1}, "s"}
	b.Inc()
	fmt.Println(b.Get(), b.Name(), b.A.n, b.n)
	c := C{&b, 3}
	c.Inc()
	fmt.Println(c.Get(), b.Get(), c.n, c.A.n, c.Name())
	var i Incer = c
	i.Inc()
	fmt.Println(i.Get(), c.Get())
	d := D{c}
	e := E{d, &A{10}}
	e.Inc()
	fmt.Println(e.Get(), e.D.Get(), e.Incer.Get())
	f := A.Get
	g := (*A).Inc
	h := B.Get
	k := Getter.Get
	l := (*B).Name
	a := A{5}
	g(&a)
	fmt.Println(f(a), h(b), k(e), l(&b))
	get := a.Get
	inc := a.Inc
	inc()
	inc()
	fmt.Println(get(), a.Get())
	bi := b.Inc
	b2 := b
	bi()
	fmt.Println(b.n, b.A.n, b2.A.n)
	fmt.Println(F(func(n int) int { return n * 2 }).Call(4))
	var list L
	list.Add(3)
	list.Add(4)
	add := list.Add
	add(5)
	fmt.Println(list, list.Len(), L.Len(list))
	m := M{}
	m.Set("a")
	set := m.Set
	m = M{}
	set("b")
	fmt.Println(m)
	n := N(3)
	n.Up()
	up := n.Up
	up()
	fmt.Println(n, []N{1, 2}, map[N]N{1: 2}, struct{ X, y N }{1, 2}, &n == nil)
	fmt.Printf("%v %d %s %x %5v|\n", n, n, n, n, n)
	var s fmt.Stringer = n
	n.Up()
	fmt.Println(s, n, s == N(5), s == fmt.Stringer(n))
	switch x := any(&n).(type) {
	case fmt.Stringer:
		fmt.Println("stringer", x)
	}
	type anon = struct {
		A
		z int
	}
	z := anon{A{1}, 2}
	z.Inc()
	fmt.Println(z.Get(), z)
	func() {
		defer func() { fmt.Println(recover()) }()
		var nd D
		nd.Get()
	}()
	func() {
		defer func() { fmt.Println(recover()) }()
		var c C
		c.Inc()
	}()
	func() {
		defer func() { fmt.Println(recover()) }()
		var gi Getter
		v := gi.Get
		fmt.Println("not here", v)
	}()
}
