package main

import "fmt"

// The value of an assignment is evaluated before the elements on its left side are read. What is computed on the left, as a
// sum or a conversion, comes before the value.

var (
	none  []int
	lists [][]int
	m     map[string][]int
	index = 3
	zero  = 0
	total = 5
)

type row struct {
	cells []int
	next  *row
}

func two() (int, int) { return 1, 2 }

func try(f func()) {
	defer func() { fmt.Println(recover(), total) }()
	f()
}

func main() {
	var r row
	ints := map[int]int{}
	bytes := map[byte]int{}
	try(func() { lists[1][0] = none[0] ^ 3 })
	try(func() { lists[1][none[0]] = none[2] })
	try(func() { lists[1][none[0]+1] = none[2] })
	try(func() { lists[1][index/zero] = none[2] })
	try(func() { lists[1][int8(none[0])] = none[2] })
	try(func() { lists[1][-none[0]] = none[2] })
	try(func() { m["a"][0] = none[0] })
	try(func() { m["a"][none[4]] = none[0] })
	try(func() { r.next.cells[0] = none[0] })
	try(func() { r.next.cells[index%zero] = none[0] })
	try(func() { r.cells[none[1]] = 1 / zero })
	try(func() { ints[none[0]] = none[1] })
	try(func() { bytes[byte(none[0])] = none[1] })
	try(func() { bytes[byte(index)] = none[1] })
	try(func() { lists[1][none[0]] = none[2:3][0] })
	try(func() { lists[1][none[0]] = len(none[2:3]) })
	try(func() { lists[1], total = none[2:], none[0] })
	try(func() { total, lists[1][index/zero] = 6, none[0] })
	try(func() { lists[index][none[0]], total = none[7], 7 })
	try(func() { total, lists[index][none[0]] = two() })
	try(func() { total, none[index/zero] = two() })
	try(func() { none[1], none[index/zero] = two() })
	try(func() { none[1], none[none[index]] = two() })
	try(func() { lists[1][none[0]+1] += none[2] })
	try(func() { lists[1][none[0]] += none[2] })
	try(func() { ints[none[0]] += none[2] })
	try(func() { ints[none[0]] /= none[2] })
	try(func() { ints[index] /= zero })
	try(func() { ints[index] <<= total - 9 })
	try(func() { ints[index+1] += none[1] })
	fmt.Println(ints, bytes, lists, r)
}
