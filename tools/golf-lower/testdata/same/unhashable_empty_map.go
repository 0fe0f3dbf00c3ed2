package main

import "fmt"

type T struct{ a any }

func try(f func()) {
	defer func() {
		r := recover()
		fmt.Println(r)
	}()
	f()
}

func main() {
	m := map[any]int{}
	var none map[any]int
	var k any = []int{1}
	try(func() { _ = m[k] })
	try(func() { delete(m, k) })
	try(func() { _ = none[k] })
	try(func() { delete(none, k) })
	try(func() { m[k] = 1 })
	try(func() { none[k] = 1 })
	n := map[T]int{}
	try(func() { _ = n[T{k}] })
	_, ok := m[1]
	fmt.Println(ok)
}
