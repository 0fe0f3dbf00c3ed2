package main

import "fmt"

// The entries of a map that are constants are stored before the others. A value comes before its key.

type pair struct{ a, b int }

func id[T any](x T) T { return x }

func try(f func()) {
	defer func() { fmt.Println(recover()) }()
	f()
}

var global = map[uint32]int{id(uint32(13)): id(8), id(uint32(2)): id(0), 2: 15}

func main() {
	two, key := 2, "a"
	var none []int
	var anything any = []int{1}
	fmt.Println(global)
	fmt.Println(map[int]int{two: 1, 2: 15})
	fmt.Println(map[string]int{id("a"): 1, "a": 2, key: 3})
	fmt.Println(map[string]string{"a": key + "b", "b": "c", key: "d"})
	fmt.Println(map[pair]int{{two, 1}: 1, {2, 1}: 2}[pair{2, 1}])
	fmt.Println(map[int]pair{two: {1, two}, 2: {3, 4}})
	fmt.Println(map[any]int{id(2): 1, 2: 3}[2])
	fmt.Println(map[int]any{two: 1, 2: 3})
	fmt.Println(map[int]any{two: 1, 2: nil})
	fmt.Println(map[int]*int{two: new(int), 2: nil}[2] == nil)
	fmt.Println(map[[2]int]bool{{two, two}: false, {2, 2}: true}[[2]int{2, 2}])
	try(func() { _ = map[int]int{none[0]: none[1]} })
	try(func() { _ = map[int]int{none[0]: id(1), 3: none[5]} })
	try(func() { _ = map[any]int{anything: 1, 3: none[5]} })
	try(func() { _ = map[any]int{3: none[5], anything: 1} })
	try(func() { _ = map[string]int{fmt.Sprint(none[2]): none[1]} })
}
