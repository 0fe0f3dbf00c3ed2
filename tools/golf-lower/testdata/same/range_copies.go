package main

import "fmt"

type part struct {
	n int
	a [2]int
}

func each(l []part) (sum int) {
	for i, x := range l {
		x.n += 10
		x.a[0] = 7
		l[i].a[1] = 5
		sum += x.n + x.a[0] + x.a[1]
	}
	return sum
}

// The variable of a range has a copy of the element.
func main() {
	fixed := []part{{1, [2]int{1, 2}}, {2, [2]int{3, 4}}}
	fmt.Println(each(fixed), fixed)
	grown := append([]part(nil), fixed...)
	grown = append(grown, part{n: 3})
	fmt.Println(each(grown[1:]), grown)
	rows := [][2]int{{1, 2}}
	rows = append(rows, [2]int{3, 4})
	for _, r := range rows {
		r[0] = 9
		r[1]++
	}
	var fs []func() int
	for _, p := range grown {
		fs = append(fs, func() int { p.n++; return p.n + p.a[0] })
	}
	fmt.Println(rows, fs[0](), fs[0](), fs[1](), grown[0].n)
	m := map[string]part{"a": {n: 1}}
	for k, p := range m {
		p.n, p.a[1] = 50, 60
		fmt.Println(k, p, m[k])
	}
	c := make(chan part, 2)
	c <- grown[0]
	grown[0].n = -1
	c <- grown[0]
	close(c)
	for p := range c {
		p.a[0]--
		fmt.Println(p)
	}
	var x part
	for _, x = range grown {
		x.n = 100
	}
	fmt.Println(x, grown)
	for i, y := range [2]part{{n: 1}, {n: 2}} {
		y.n += i
		fmt.Println(y)
	}
}
