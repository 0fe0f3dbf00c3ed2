package main

import "fmt"

type t struct{ n int }

func (x t) val(s string)  { fmt.Println("val", x.n, s) }
func (x *t) ptr(s string) { fmt.Println("ptr", x.n, s) }

func arg(s string) string { fmt.Println("arg", s); return s }

func f() (r int) {
	x := t{1}
	p := &x
	defer x.val(arg("a"))
	defer x.ptr(arg("b"))
	defer p.val(arg("c"))
	defer func(n int) { r += n; fmt.Println("r", r) }(x.n)
	x.n = 2
	p = &t{9}
	defer p.ptr(arg("d"))
	var g func(int) = func(i int) { fmt.Println("g", i) }
	defer g(x.n)
	g = func(i int) { fmt.Println("other", i) }
	for i := 0; i < 3; i++ {
		defer func() { fmt.Println("loop", i) }()
		defer fmt.Println("direct", i, x)
	}
	x.n = 3
	m := map[string]int{"a": 1}
	defer fmt.Println(m, len(m), m["a"])
	m["a"] = 5
	m["b"] = 6
	defer delete(m, "b")
	s := []int{1, 2, 3}
	defer fmt.Println(s)
	defer fmt.Printf("%v %d %s\n", s, len(arg("once")), arg("two"))
	go fmt.Sprint(arg("go"))
	defer fmt.Print(x, p, any(s), "\n")
	s[0] = 9
	s = append(s, 4)
	return x.n * 10
}

func nilFunc() {
	defer func() { fmt.Println("recovered", recover()) }()
	var g func()
	defer g()
	fmt.Println("body runs")
}

func nilMethod() {
	defer func() { fmt.Println("recovered", recover()) }()
	var p *t
	defer p.ptr("x")
	fmt.Println("before")
	defer p.val("y")
	fmt.Println("not reached")
}

func order() (s string) {
	defer func() { s += "1" }()
	defer func() { s += "2" }()
	s = "0"
	return s + "r"
}

func two() (a, b int) {
	defer func() { a, b = b, a }()
	return 1, 2
}

func arr() (a [2]int) {
	defer func() { a[0]++ }()
	b := [2]int{5, 6}
	defer func() { b[0] = 100 }()
	return b
}

type pair struct {
	a int
	s []int
}

func strct() (p pair) {
	defer func() {
		recover()
		p.a += 1000
		p.s = append(p.s, 1)
	}()
	p = pair{1, nil}
	p.a = 7
	var q *pair
	return *q
}

func main() {
	fmt.Println(f())
	nilFunc()
	nilMethod()
	fmt.Println(order())
	fmt.Println(two())
	fmt.Println(arr())
	fmt.Println(strct())
	func() {
		defer func() {
			defer func() { fmt.Println("inner", recover()) }()
			panic("second")
		}()
		defer func() { fmt.Println("first", recover()) }()
		panic("first")
	}()
	fmt.Println("end")
}
