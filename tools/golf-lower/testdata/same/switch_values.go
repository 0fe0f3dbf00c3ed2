package main

import "fmt"

// The variable of a type switch is a copy of what the interface holds.

type pair struct{ a, b int }

func (p *pair) set(n int) { p.a = n }

func change(x any) {
	switch v := x.(type) {
	case pair:
		v.a = 7
		fmt.Println(v, x)
		v.set(8)
		fmt.Println(v, x)
	case [2]pair:
		v[1].b = 9
		fmt.Println(v, x)
	case [3]int:
		p := &v[1]
		*p = 10
		fmt.Println(v, x)
	case *pair:
		v.a = 11
		fmt.Println(*v, *x.(*pair))
	case int, struct{ n int }:
		fmt.Println(v, x)
	}
}

func main() {
	for _, x := range []any{pair{1, 2}, [2]pair{{1, 2}, {3, 4}}, [3]int{1, 2, 3}, &pair{5, 6}, 3, struct{ n int }{4}} {
		change(x)
		change(x)
	}
}
