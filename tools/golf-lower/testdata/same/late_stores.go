package main

import "fmt"

// A division by zero on the right of a, b = x, y comes behind the stores before it, if it reads nothing that is stored.

var total, other = 1, 2

func zero() int { return 0 }

func try(f func()) {
	defer func() { fmt.Println(total, other, recover()) }()
	f()
}

func main() {
	m := map[string]int{}
	xs := []int{4, 5}
	n := 0
	try(func() { total, m["a"] = 7, 3/zero() })
	try(func() { total, other = 8, other%zero() })
	try(func() { total, other = 9, (zero()+1)%(zero()^zero()) })
	try(func() { xs[0], total, other = 6, 10, 1/zero() })
	try(func() { total, other, xs[1] = 11, 1/zero(), 12 })
	try(func() { total, other = 1/zero(), 13 })
	try(func() { total, xs[2] = 14, 1 })
	try(func() {
		k := n
		total, other = 15, 6/k
	})
	try(func() { total, other = 16, 6/n })
	fmt.Println(m, xs)
}
