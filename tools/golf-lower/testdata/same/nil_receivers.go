package main

import "fmt"

type shape interface {
	Area() int
	Name() string
}

type square int

func (s square) Area() int     { return int(s) * int(s) }
func (s *square) Name() string { return fmt.Sprint("square ", s == nil) }

type rect struct{ w, h int }

func (r rect) Area() int    { return r.w * r.h }
func (r rect) Name() string { return "rect" }

func try(f func()) {
	defer func() {
		r := recover()
		err, ok := r.(error)
		fmt.Println(r, ok, err)
	}()
	f()
}

func deferred(s shape) (n int) {
	defer func() { n = 1; recover() }()
	defer s.Area()
	return 7
}

func main() {
	var s *square
	var r *rect
	var x shape
	for _, sh := range []shape{s, r, x} {
		try(func() { fmt.Println(sh.Area()) })
		try(func() { fmt.Println(sh.Name()) })
	}
	try(func() { fmt.Println(shape.Area(nil)) })
	try(func() { fmt.Println(r.Area()) })
	fmt.Println(deferred(s), deferred(x), deferred(new(square)))
}
