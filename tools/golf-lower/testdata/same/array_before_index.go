package main

import "fmt"

// An array on the left side is found before its index is evaluated, and a pointer to an array is looked at before.

var (
	none  [][2]int
	some  = [][2]int{{1, 2}}
	nilp  *[2]int
	deep  [][2][2]int
	index = -8
	total = 1
)

func try(f func()) {
	defer func() { fmt.Println(recover(), some, total) }()
	f()
}

func main() {
	xs := []int{0, 1}
	try(func() { none[0][xs[index]] = 1 })
	try(func() { none[0][xs[index]], total = 1, 2 })
	try(func() { none[0][xs[index]]++ })
	try(func() { none[0][xs[index]] += total })
	try(func() { _ = none[0][xs[index]] })
	try(func() { some[0][xs[index]] = 1 })
	try(func() { some[xs[1]][xs[index]] = 1 })
	try(func() { some[0][xs[1]], total = 7, 8 })
	try(func() { deep[0][xs[1]][xs[index]] = 1 })
	try(func() { nilp[xs[index]] = 1 })
	try(func() { nilp[xs[index]]++ })
	try(func() { _ = nilp[xs[index]] })
	try(func() { _ = &nilp[xs[index]] })
	try(func() { xs[xs[index]] = 1 })
}
