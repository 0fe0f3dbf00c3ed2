package main

import (
	"errors"
	"fmt"
	"runtime"
	"strings"
)

type myErr struct{ code int }

func (e *myErr) Error() string { return fmt.Sprint("code ", e.code) }

func try(name string, f func()) {
	defer func() {
		r := recover()
		if e, ok := r.(runtime.Error); ok {
			fmt.Println(name, "runtime:", e.Error())
			return
		}
		if e, ok := r.(error); ok {
			var m *myErr
			fmt.Println(name, "error:", e, errors.As(e, &m))
			return
		}
		fmt.Printf("%s %T %v\n", name, r, r)
	}()
	f()
}

type iface interface{ M(int) string }
type impl struct{ a []int }

func (i impl) M(n int) string { return fmt.Sprint(i.a[n]) }

type other struct{}

func (o *other) M(n int) string { return "o" }

func deep(n int) int {
	if n == 0 {
		var a []int
		return a[n]
	}
	defer func() { fmt.Print("d", n, " ") }()
	return deep(n-1) + 1
}

func main() {
	var (
		m   map[string]int
		p   *impl
		i   iface
		s   = []int{1, 2, 3}
		str = "abc"
		n   = 5
		neg = -1
		z   = 0
		a   any
		arr [3]int
	)
	try("nil map", func() { m["a"] = 1 })
	try("nil map op", func() { m["a"]++ })
	try("nil ptr", func() { fmt.Println(p.a) })
	try("nil ptr method", func() { p.M(1) })
	try("nil iface", func() { i.M(1) })
	try("index", func() { fmt.Println(s[n]) })
	try("index neg", func() { fmt.Println(s[neg]) })
	try("index array", func() { fmt.Println(arr[n]) })
	try("index string", func() { fmt.Println(str[n]) })
	try("set index", func() { s[n] = 1 })
	try("slice hi", func() { fmt.Println(s[1:n]) })
	try("slice lo", func() { fmt.Println(s[n:]) })
	try("slice order", func() { fmt.Println(s[2 : 1+z]) })
	try("slice neg", func() { fmt.Println(s[neg:]) })
	try("slice3", func() { fmt.Println(s[1:2:n]) })
	try("slice3 order", func() { fmt.Println(s[3+z:3:3], s[z:3:2+z]) })
	try("slice array", func() { fmt.Println(arr[n:]) })
	try("slice string", func() { fmt.Println(str[2:n]) })
	try("slice string lo", func() { fmt.Println(str[n:]) })
	try("slice string order", func() { fmt.Println(str[2 : 1+z]) })
	try("div", func() { fmt.Println(n / z) })
	try("mod", func() { fmt.Println(n % z) })
	try("div8", func() { fmt.Println(int8(n) / int8(z)) })
	try("divu", func() { fmt.Println(uint64(n) / uint64(z)) })
	try("div assign", func() { n /= z })
	try("shift", func() { fmt.Println(1 << neg) })
	try("shift assign", func() { n <<= neg })
	try("make", func() { fmt.Println(make([]int, neg)) })
	try("make cap", func() { fmt.Println(make([]int, n, z)) })
	try("chan", func() { fmt.Println(make(chan int, neg)) })
	try("assert nil", func() { fmt.Println(a.(int)) })
	a = "text"
	try("assert", func() { fmt.Println(a.(int)) })
	try("assert iface", func() { fmt.Println(a.(iface)) })
	a = other{}
	try("assert ptr method", func() { fmt.Println(a.(iface)) })
	a = myErr{}
	try("assert named", func() { fmt.Println(a.(impl)) })
	i = impl{}
	try("assert from iface", func() { fmt.Println(i.(*other)) })
	try("in method", func() { i.M(3) })
	try("compare", func() { a, b := any(s), any(s); fmt.Println(a == b) })
	try("compare struct", func() { a, b := any(impl{}), any(impl{}); fmt.Println(a == b) })
	try("key", func() { fmt.Println(map[any]int{}[s]) })
	try("key set", func() { mm := map[any]int{}; mm[impl{}] = 1 })
	try("key delete", func() { mm := map[any]int{1: 2}; delete(mm, any(func() {})) })
	try("nil func", func() { var f func(); f() })
	try("panic string", func() { panic("s") })
	try("panic error", func() { panic(&myErr{3}) })
	try("panic wrapped", func() { panic(fmt.Errorf("w: %w", &myErr{4})) })
	try("panic struct", func() { panic(struct{ a, b int }{1, 2}) })
	try("panic int", func() { panic(42) })
	try("no panic", func() {})
	try("deep", func() { deep(3) })
	try("nested", func() {
		defer func() { panic(fmt.Sprint("again ", recover())) }()
		panic("first")
	})
	try("replaced", func() {
		defer func() { panic("second") }()
		panic("first")
	})
	try("goexit no", func() {
		defer func() {
			func() { fmt.Println("not direct:", recover()) }()
		}()
		panic("x")
	})
	try("repeat", func() { strings.Repeat("x", neg) })
	try("closure", func() {
		f := func(k int) int { return s[k] }
		for k := range 5 {
			fmt.Print(f(k), " ")
		}
	})
	try("map of slices", func() { mm := map[string][]int{}; mm["a"][0]++ })
	try("array ptr", func() { var pa *[2]int; pa[1] = 3 })
	try("array ptr slice", func() { var pa *[2]int; fmt.Println(len(pa[:])) })
	try("struct copy", func() { var q *impl; r := *q; fmt.Println(r) })
	fmt.Println(n, s, arr)
}
