package main

import "fmt"

type S struct{ a int }
type M int
type St string

func f() (int16, bool, string) { return 1, true, "x" }

func try(v any) {
	defer func() {
		r := recover()
		println(r != nil)
	}()
	panic(v)
}

func main() {
	println(f())
	print(f())
	println()
	var p *S
	var e error
	var s []int
	println(p, e, s)
	fmt.Printf("%d %d %5x|%s\n", "a", 2.5, true, 7)
	try(S{1})
	try(M(3))
	var x any = St("q")
	panic(x)
}
