package main

import (
	"errors"
	"fmt"
)

type T struct{ a any }

var order []string

func note(s string, n int) int { order = append(order, s); return n }

func try(f func()) {
	defer func() {
		fmt.Println(recover())
	}()
	f()
}

var x int

func setX() int { x = 10; return 1 }

func main() {
	m := map[any]int{1: 2}
	var k any = []int{1}
	try(func() { _ = m[k] })
	try(func() { m[k] = 3 })
	try(func() { delete(m, k) })
	try(func() { m[k]++ })
	try(func() { _ = map[any]int{k: 1} })
	n := map[T]int{}
	try(func() { n[T{func() {}}] = 1 })
	try(func() { fmt.Println(k == k) })
	try(func() { fmt.Println(any(T{k}) == any(T{1})) })
	try(func() { fmt.Println([2]any{1, k} == [2]any{2, k}) })
	fmt.Println([]int{2: note("a", 1), 0: note("b", 2)}, order)
	x += setX()
	fmt.Println(x)
	var p *struct{ v int }
	try(func() { p.v += note("c", 1) })
	try(func() { m[1], p.v = 7, 8 })
	fmt.Println(order, m[1], errors.Is(errors.New("a"), nil))
	var a [3]int
	i := 0
	i, a[i] = 2, 9
	fmt.Println(i, a)
	var arr *[3]int
	for i := range arr {
		fmt.Print(i)
	}
	fmt.Println()
	try(func() {
		for i, v := range arr {
			fmt.Print(i, v)
		}
	})
}
