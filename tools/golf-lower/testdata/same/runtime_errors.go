package main

import (
	"errors"
	"fmt"
	"runtime"
)

type inner struct{ n int }
type outer struct{ *inner }
type shape interface{ area() int }
type square struct{ side int }
type text struct{ s string }

func (s square) area() int     { return s.side }
func (t *text) String() string { return t.s }

func try(name string, f func()) {
	defer func() {
		r := recover()
		err, ok := r.(runtime.Error)
		fmt.Println(name, ok, r)
		var re runtime.Error
		if ok && !errors.As(err, &re) {
			fmt.Println("no runtime.Error")
		}
	}()
	f()
	fmt.Println(name, "goes on")
}

func main() {
	var p *inner
	var o outer
	var a []int
	var arr [3]int
	var pa *[3]int
	var m map[string]int
	var f func()
	var s shape
	var x any
	s5 := []int{1, 2, 3, 4, 5}
	str := "hello"
	n, z := 7, 0
	neg := -2
	try("field", func() { _ = p.n })
	try("store", func() { p.n = 1 })
	try("embedded", func() { o.n++ })
	try("star", func() { *p = inner{2} })
	try("index", func() { _ = a[z] })
	try("index store", func() { s5[n] = 1 })
	try("negative", func() { _ = s5[neg] })
	try("array", func() { arr[n]++ })
	try("array pointer", func() { _ = pa[1] })
	try("string", func() { _ = str[n] })
	try("high", func() { _ = s5[:n] })
	try("low", func() { _ = s5[n:] })
	try("crossed", func() { _ = s5[4:z] })
	try("negative low", func() { _ = s5[neg:] })
	try("three", func() { _ = s5[1:2:n] })
	try("array slice", func() { _ = arr[:n] })
	try("string slice", func() { _ = str[n:] })
	try("string slice 2", func() { _ = str[3:z] })
	try("divide", func() { fmt.Println(n / z) })
	try("remainder", func() { n %= z })
	try("map", func() { m["a"]++ })
	try("map store", func() { m["a"] = 1 })
	try("function", func() { f() })
	try("nil method", func() { s.area() })
	try("nil assertion", func() { _ = x.(int) })
	try("nil interface", func() { _ = x.(shape) })
	x = "text"
	try("assertion", func() { _ = x.(int) })
	try("missing", func() { _ = x.(shape) })
	x = &text{"t"}
	try("stringer", func() { _ = x.(fmt.Stringer) })
	try("pointer", func() { _ = x.(*square) })
	s = square{2}
	try("named", func() { _ = s.(fmt.Stringer) })
	try("make", func() { _ = make([]int, neg) })
	try("make 3", func() { _ = make([]int, 2, neg+3) })
	try("shift", func() { _ = 1 << neg })
	try("value method", func() {
		var q *square
		q.area()
	})
	try("fine", func() { _ = s5[1:3] })
}
