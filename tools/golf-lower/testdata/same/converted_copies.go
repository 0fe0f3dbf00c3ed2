package main

import "fmt"

// A value that an interface gets is copied in its turn, if the runtime of Go takes its address.

type pair struct{ a, b int }
type one struct{ p *int }

var total = 3
var small uint8 = 3
var text = "abc"
var floats = map[float64]int{1: 1}
var ints = map[int]int{1: 1}
var bools = map[int]bool{1: true}
var pairs = map[int]pair{1: {1, 2}}
var bigs = map[int][20]int{1: {1, 2}}
var xs = []pair{{1, 2}}
var arr = [1]pair{{1, 2}}
var ptr = &pair{1, 2}
var anyone any = 1

func up() int {
	total += total
	small += small
	text = text[1:] + "x"
	floats[1]++
	ints[1]++
	bools[1] = !bools[1]
	pairs[1] = pair{total, total}
	bigs[1] = [20]int{total}
	xs[0].a++
	arr[0].a++
	ptr.a++
	return total
}

func show(a, b int)             { fmt.Println("show", a, b) }
func showb(a bool, b int)       { fmt.Println("showb", a, b) }
func showp(a [20]int, b int)    { fmt.Println("showp", a[0], b) }
func anyp(a any, b int)         { fmt.Println("any", a, b) }
func (p pair) String() string   { return fmt.Sprint("p", p.a, p.b) }
func str(s fmt.Stringer, b int) { fmt.Println("str", s, b) }
func ret() (any, int)           { return pair{total, 1}, up() }
func retb() (any, bool, int)    { return total > 100, total > 100, up() }

func main() {
	fmt.Println(total > 3, up())
	fmt.Println(small+1, up())
	fmt.Println(text[0], up())
	fmt.Println(floats[1], ints[1], bools[1], pairs[1], up())
	show(floats[1], up())
	show(ints[1], up())
	showb(bools[1], up())
	showp(bigs[1], up())
	show(pairs[1].a, up())
	anyp(pair{total, 1}, up())
	anyp(xs[0], up())
	anyp(arr[0], up())
	anyp(*ptr, up())
	anyp(ptr.a, up())
	anyp(&pair{total, 1}, up())
	anyp(uint8(total), up())
	anyp(float64(total), up())
	anyp([1]int{total}, up())
	anyp([]int{total}, up())
	anyp(text+"q", up())
	anyp(any(pair{total, 2}).(pair), up())
	str(pair{total, 1}, up())
	fmt.Println(ret())
	fmt.Println(retb())
	x, y := any(pair{total, 1}), up()
	fmt.Println(x, y)
	var z, w any = pair{total, 1}, up()
	fmt.Println(z, w)
	z, w = pair{total, 1}, up()
	fmt.Println(z, w)
	l := []any{pair{total, 1}, total, up()}
	fmt.Println(l)
	s := struct {
		a any
		b int
	}{pair{total, 1}, up()}
	fmt.Println(s)
	c := make(chan any, 1)
	c <- pair{total, up()}
	fmt.Println(<-c)
	fmt.Println(anyone == pair{total, 1}, (anyone != pair{total, 1}) == (up() > 3))
	e := append([]any{}, pair{total, 1}, total, up())
	fmt.Println(e)
	fmt.Printf("%v %v %v\n", small == 3, pair{total, 1}.a, up())
	fmt.Println(fmt.Sprint(pair{total, 1}, up()))
	defer fmt.Println(pair{total, 1}, up())
	func() {
		defer func() { fmt.Println(recover()) }()
		panic(pair{total, up()})
	}()
	var f func(...any) = func(xs ...any) { fmt.Println(xs...) }
	f(pair{total, 1}, total == 5, up())
	fmt.Println(!(total > 3), -small, ^small, up())
	fmt.Println([2]bool{total > 3, true}, [3]uint8{small}, struct{ b bool }{total > 5}, up())
	i := 3
	g := func() int { i++; return i }
	fmt.Println(i > 3, pair{i, 1}, i, g())
	k := one{&total}
	fmt.Println(*k.p, one{k.p}.p == nil, up())
	kept()
}

type holds struct {
	x pair
	y [1]int
	z int
}

func kept() {
	fmt.Println([2]pair{{total, 1}, {2, 3}}[0], up())
	fmt.Println(holds{x: [2]pair{{total, 1}, {2, 3}}[0]}, up())
	fmt.Println(holds{y: holds{y: [1]int{total}}.y}, up())
	fmt.Println(holds{z: pair{total, 1}.a}, up())
	fmt.Println([]pair{[2]pair{{total, 1}, {2, 3}}[0]}, up())
	fmt.Println([2]int{total, 1}[0], pair{total, 2}.a, holds{x: pair{total, 2}}.x, up())
	x := []any{[2]pair{{total, 1}, {2, 3}}[0], pair{total, 1}, up()}
	fmt.Println(x...)
}
