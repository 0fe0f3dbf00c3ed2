package main

import (
	"errors"
	"fmt"
	"reflect"
)

type node struct {
	name string
	kids []*node
	tags map[string]any
}

type named []int

func tree(last string) *node {
	return &node{"root", []*node{{name: "a"}, {name: last}}, map[string]any{"x": 1, "y": []string{"p", "q"}}}
}

func main() {
	e := errors.New("e")
	for _, c := range [][2]any{
		{1, 1}, {1, 2}, {1, "1"}, {int8(1), 1}, {"a", "a"}, {nil, nil}, {nil, 1},
		{[]int{1, 2}, []int{1, 2}}, {[]int{1, 2}, []int{1, 3}}, {[]int(nil), []int{}}, {[]int(nil), []int(nil)},
		{named{1}, []int{1}}, {named{1}, named{1}},
		{map[string]int{"a": 1}, map[string]int{"a": 1}}, {map[string]int{"a": 1}, map[string]int{"b": 1}},
		{map[string]int(nil), map[string]int{}},
		{tree("b"), tree("b")}, {tree("b"), tree("c")}, {*tree("b"), *tree("b")},
		{[2]bool{true}, [2]bool{true, false}}, {e, e}, {e, errors.New("e")}, {e, errors.New("f")},
		{func() {}, func() {}}, {(func())(nil), (func())(nil)}, {1.5, 1.5},
		{[]any{1, "a", nil}, []any{1, "a", nil}},
	} {
		fmt.Println(reflect.DeepEqual(c[0], c[1]))
	}
}
