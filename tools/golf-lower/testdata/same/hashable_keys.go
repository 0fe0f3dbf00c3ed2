// Keys that hold interfaces, with values that all have a hash.
package main

import "fmt"

type pair struct {
	name string
	v    any
}

type arrays [2]any

func main() {
	m := map[any]int{1: 1, "a": 2}
	for _, k := range []any{1, "a", nil, 2.5, pair{"x", 1}, arrays{1, 2}, pair{"y", pair{"z", arrays{nil, 3}}}} {
		fmt.Println(m[k])
		m[k] += 3
		_, ok := m[k]
		fmt.Println(ok, len(m))
	}
	delete(m, arrays{1, 2})
	fmt.Println(m[arrays{1, 2}], m[pair{"x", 1}], len(m))
	byPair := map[pair]int{}
	byPair[pair{"a", 1}]++
	byPair[pair{"a", 1}]++
	byArray := map[[2]any]bool{}
	byArray[[2]any{1, nil}] = true
	fmt.Println(byPair[pair{"a", 1}], byArray[[2]any{1, nil}], byArray[[2]any{nil, 1}])
}
