package main

import "fmt"

// clear gives elements their zero value in their place, so that pointers to them see it.

type pair struct {
	a int
	b [2]string
}

func main() {
	list := []pair{{1, [2]string{"x", "y"}}, {2, [2]string{"z", "w"}}}
	p, q := &list[0], &list[1].b
	half := list[:1]
	clear(half)
	fmt.Println(*p, *q, list)
	clear(list)
	fmt.Println(*p, *q, list)
	q[0] = "new"
	p.a = 5
	fmt.Println(list)
	rows := [][2]int{{1, 2}, {3, 4}}
	row := &rows[1]
	clear(rows)
	row[0] = 9
	fmt.Println(rows, *row)
	ints := []int{1, 2, 3}
	at := &ints[2]
	clear(ints[1:])
	*at++
	fmt.Println(ints, *at)
}
