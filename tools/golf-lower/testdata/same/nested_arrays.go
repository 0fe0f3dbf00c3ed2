package main

import "fmt"

type grid struct {
	a [2][3]int
	b [3][2]int
}

func main() {
	var a [2][3]int
	var b [3][2]int
	b[2][1] = 5
	c, d := a, b
	d[0][0] = 1
	c[1][2] = 7
	fmt.Println(a, b, c, d, len(a[0]), len(b[0]))
	var g grid
	h := g
	h.a[1][2], h.b[2][1] = 3, 4
	fmt.Println(g, h, g == h)
	s := make([][4]int, 1)
	t := make([][2]int, 2)
	s = append(s, [4]int{1, 2, 3, 4})
	t = append(t, [2]int{5, 6})
	fmt.Println(s, t, len(s[0]), len(t[0]))
	m := map[int][3]string{1: {"a"}}
	n := map[int][1]string{}
	fmt.Printf("%q %q\n", m[1], n[1])
	p := new([2][2][1]int)
	p[1][1][0] = 9
	q := *p
	p[1][1][0] = 8
	fmt.Println(*p, q)
}
