package main

import "fmt"

// Methods that are promoted over several levels get copies and pointers as Go gives them.

type counter struct{ n int }

func (c counter) get() int            { return c.n }
func (c *counter) add(k int) *counter { c.n += k; return c }

type named struct {
	*counter
	name string
}

func (n named) String() string { return fmt.Sprint(n.name, "=", n.get()) }

type outer struct {
	named
	inner
	getter
}

type inner struct{ counter }

func (i inner) more() int { i.add(100); return i.counter.get() }

type getter interface{ see() string }

type seen struct{ o *outer }

func (s seen) see() string { return s.o.name + "!" }

func main() {
	o := &outer{named: named{&counter{1}, "a"}}
	o.getter = seen{o}
	p := *o
	p.named.add(5)
	p.inner.add(7)
	p.name = "b"
	fmt.Println(o.named, p.named, o.inner.get(), p.inner.get(), o.see(), p.see())
	fmt.Println(o.more(), o.inner.get(), p.more(), p.inner)
	get, add := p.named.get, p.inner.add
	p.named.add(10)
	add(1)
	p.inner.counter = counter{40}
	add(2)
	fmt.Println(get(), p.named.get(), p.inner.get())
	f := outer.more
	g := (*outer).see
	h := (*inner).add
	fmt.Println(f(p), g(&p), h(&p.inner, 3).get(), p.inner.get())
	var s fmt.Stringer = p
	p.name = "c"
	fmt.Println(s, p)
	list := []outer{*o, p}
	for _, x := range list {
		x.inner.add(1)
		x.named.add(1)
	}
	fmt.Println(list[0].inner, list[1].inner, list[0].named, list[1].named)
	m := map[string]named{"x": {&counter{1}, "x"}}
	m["x"].add(2)
	fmt.Println(m["x"])
	var none *outer
	defer func() { fmt.Println(recover()) }()
	fmt.Println(none.more())
}
