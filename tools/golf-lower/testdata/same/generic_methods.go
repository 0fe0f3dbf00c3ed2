package main

import (
	"fmt"
	"strconv"
)

type list[E any] []E

func (l list[E]) each[P any](f func(E) P) list[P] {
	var r list[P]
	for _, x := range l {
		r = append(r, f(x))
	}
	return r
}

type pair[A, B any] struct {
	a A
	b B
}

func (p *pair[A, B]) with[C any](c C) pair[A, C] { return pair[A, C]{p.a, c} }

type plain struct{ n int }

func (p plain) size[T any]() string { return fmt.Sprintf("%d %T", p.n, *new(T)) }

func main() {
	fmt.Println(list[int]{1, 2, 3}.each(strconv.Itoa).each(func(s string) int { return len(s) }))
	p := &pair[int, string]{1, "a"}
	fmt.Println(p.with(2.5), p.with[bool](true))
	f := p.with[byte]
	p.a = 7
	fmt.Println(f(3), plain{4}.size[[]int](), plain.size[string](plain{5}))
}
