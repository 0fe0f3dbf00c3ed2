package main

import "fmt"

type counter struct{ n int }

func (c *counter) add() { c.n++ }

func main() {
	var fs []func() int
	for i := 0; i < 3; i++ {
		fs = append(fs, func() int { i += 10; return i })
	}
	var ps []*int
	for k, v := range []int{5, 6, 7} {
		fs = append(fs, func() int { return k*100 + v })
		ps = append(ps, &v)
	}
	for _, f := range fs {
		fmt.Print(f(), " ")
	}
	for _, p := range ps {
		fmt.Print(*p, " ")
	}
	fmt.Println()
	var adders []func()
	for _, c := range []counter{{1}, {2}} {
		adders = append(adders, c.add)
		defer func() { fmt.Println("at the end", c.n) }()
	}
	for _, add := range adders {
		add()
	}
outer:
	for i, s := 0, ""; ; i++ {
		for _, x := range []string{"a", "b", "c"} {
			f := func() { s += x }
			f()
			if x == "b" && i < 2 {
				continue outer
			}
			if i == 2 {
				fmt.Println(s, i)
				break outer
			}
		}
	}
}
