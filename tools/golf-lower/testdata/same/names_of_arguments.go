package main

import "fmt"

// In an argument of a type the name of a field that is not exported has its package.

type entry[K, V any] struct {
	K K
	v V
}

type cell struct{ n int }

func main() {
	fmt.Printf("%T\n", entry[int32, struct {
		B float64
		a []int
	}]{})
	fmt.Printf("%T %T\n", entry[cell, *cell]{}, []entry[any, interface{ m(struct{ x int }) }]{})
	fmt.Printf("%T\n", struct{ a entry[struct{ b int }, int] }{})
	defer func() { fmt.Println(recover()) }()
	var key any = entry[int, struct{ list []int }]{}
	fmt.Println(map[any]int{}[key])
}
