package main

import "fmt"

// The left side of x op= y is read before the right side, and behind the calls.

var total = 5

func inc(n *int) int { *n++; return *n }

func try(f func()) {
	defer func() { fmt.Println(total, recover()) }()
	f()
}

func main() {
	xs, ys := []bool{true}, []int{1}
	g := -7
	try(func() { ys[0] *= ys[total] })
	try(func() { ys[g] *= ys[total] })
	try(func() { ys[g] *= ys[total] + inc(&total) })
	try(func() { ys[0] += ys[0] + inc(&total) })
	try(func() { ys[g] /= ys[0] - ys[0] })
	try(func() { ys[0] <<= ys[g] })
	try(func() { var m map[string]int; m["a"] += ys[g] })
	try(func() { var p *[2]int; p[1] += ys[g] })
	try(func() { var p *int; *p += ys[g] })
	try(func() { var p *[2]int; p[1] += inc(&total) })
	try(func() { ys[0], xs[g] = inc(&total), inc(&total) > 3 })
	fmt.Println(xs, ys)
}
