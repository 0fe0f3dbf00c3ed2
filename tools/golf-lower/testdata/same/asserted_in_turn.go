package main

import "fmt"

// A type assertion reads its interface in its turn, before a later call changes the variable.

type named string

func (n named) String() string { return "named " + string(n) }

var global any = 1

var holder struct{ v any }

func main() {
	var v any = 1
	change := func() int { v = "s"; return 2 }
	fmt.Println(v.(int) + change())
	v = named("a")
	text := func(s fmt.Stringer, n int) string { return fmt.Sprint(s, n) }
	fmt.Println(text(v.(fmt.Stringer), change()))
	other := func() int { global = nil; holder.v = "t"; return 5 }
	holder.v = 3
	fmt.Println(global.(int)*10+other(), holder.v)
	global, holder.v = 4, 6
	a, b := holder.v.(int), other()
	fmt.Println(a, b, []int{a, b})
	global, holder.v = 4, 6
	fmt.Println([]int{holder.v.(int), other(), a})
	list := []any{1, 2}
	swap := func() int { list[0] = "x"; return 3 }
	fmt.Println(list[0].(int) - swap())
}
