package main

import "fmt"

type v struct{ x, y int }

func (a v) add(b v) v   { return v{a.x + b.x, a.y + b.y} }
func (a *v) inc() *v    { a.x++; return a }
func (a v) arr() [2]int { return [2]int{a.x, a.y} }

type m struct {
	rows [][]v
	by   map[string]map[int]*v
	ar   [2]map[string][]int
	in   struct {
		p **v
		f func(int) *v
	}
}

type wrapper struct{ *inner }
type inner struct{ list []wrapper }

func (w wrapper) depth() int {
	d := 0
	if w.inner == nil {
		return 0
	}
	for _, x := range w.list {
		d = max(d, x.depth())
	}
	return d + 1
}

type rec map[string]rec
type recs []recs
type fn func() fn

func main() {
	a := v{1, 2}
	fmt.Println(a.add(v{1, 1}).add(a).arr()[1], a.inc().inc().add(*a.inc()), a)
	t := m{rows: [][]v{{{1, 2}}, {}}, by: map[string]map[int]*v{"a": {1: {3, 4}}}}
	t.rows[1] = append(t.rows[1], t.rows[0]...)
	t.rows[1][0].x = 9
	t.rows[0][0].inc().y *= 5
	t.by["a"][1].x, t.by["a"][1].y = t.by["a"][1].y, t.by["a"][1].x
	t.by["b"] = map[int]*v{}
	t.by["b"][2] = t.by["a"][1].inc()
	t.ar[1] = map[string][]int{"q": {1}}
	t.ar[1]["q"][0] += 4
	t.ar[0], t.ar[1] = t.ar[1], nil
	p := &a
	t.in.p = &p
	(**t.in.p).x = 100
	*t.in.p = &v{7, 7}
	t.in.f = func(n int) *v { return &t.rows[n][0] }
	t.in.f(0).x, t.in.f(1).y = 50, 60
	fmt.Println(t.rows, *t.by["b"][2], t.by["b"][2] == t.by["a"][1], t.ar, a, *p)
	w := wrapper{&inner{[]wrapper{{}, {&inner{}}}}}
	fmt.Println(w.depth(), len(w.list), w.list[1].inner != nil)
	r := rec{"a": {"b": nil}, "c": rec{}}
	r["a"]["d"] = r
	fmt.Println(len(r), len(r["a"]), r["a"]["d"]["c"] != nil, r["x"]["y"] == nil)
	rs := recs{{}, {{}, nil}}
	rs[0] = rs
	fmt.Println(len(rs), len(rs[0][1]), rs[1][1] == nil)
	n := 0
	var f fn
	f = func() fn {
		n++
		if n > 3 {
			return nil
		}
		return f
	}
	for g := f; g != nil; g = g() {
	}
	fmt.Println(n)
	x := [][]int{{1, 2, 3}, {4}}
	x[0], x[1] = x[1], x[0][1:]
	x[1][0]++
	fmt.Println(x, len(x[0]), cap(x[1]))
	type pt = [2][2]v
	q := pt{{{1, 1}}, {{}, {2, 2}}}
	z := q
	z[0][0].x = 5
	q[1] = z[0]
	q[1][1].y++
	fmt.Println(q, z, q == z, q[1] == pt{1: q[1]}[1])
	i := 0
	get := func() *int { i += 10; return &i }
	*get() += *get()
	fmt.Println(i)
	b := []bool{true, false}
	b[0], b[1] = b[1] || !b[0], b[0] && len(b) > 1
	fmt.Println(b)
	var any1 any = map[string]any{"k": []any{1, map[string]any{"z": v{1, 2}}}}
	fmt.Println(any1.(map[string]any)["k"].([]any)[1].(map[string]any)["z"].(v).y, any1)
	s := "x"
	s, l := s+"y", len(s)
	fmt.Println(s, l)
	const c = len("abc") + cap([4]int{})
	fmt.Println(c, len([c]int{}))
	ch := make(chan []v, 2)
	ch <- []v{{1, 1}}
	ch <- t.rows[0]
	(<-ch)[0].x = 3
	(<-ch)[0].inc()
	fmt.Println(t.rows[0], len(ch))
	var iface interface{ add(v) v } = a
	a.x = -1
	fmt.Println(iface.add(v{}), iface == interface{ add(v) v }(v{100, 2}))
	pp := &iface
	*pp = &v{4, 4}
	fmt.Println((*pp).add(v{1, 1}))
}
