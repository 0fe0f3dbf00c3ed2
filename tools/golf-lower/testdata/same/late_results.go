package main

import "fmt"

type pair struct{ a, b int }

func (p pair) next() int { p.a++; p.b += p.a; return p.a + p.b }

// A result that a literal captures has what was returned; a method value has a copy of its receiver at each call.
func result() (r int, get func() int) {
	get = func() int { return r }
	r = 1
	return 5, get
}

func main() {
	r, get := result()
	fmt.Println(r, get())
	p := pair{1, 2}
	next := p.next
	p.a = 50
	fmt.Println(next(), next(), p)
}
