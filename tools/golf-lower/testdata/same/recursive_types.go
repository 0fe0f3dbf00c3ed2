package main

import (
	"fmt"
	"reflect"
	"sort"
)

type list []list

type tree map[string]tree

type number *number

type visit func(visit) int

type a []b
type b map[int]a

type still []still

func (l list) depth() int {
	d := 0
	for _, x := range l {
		d = max(d, x.depth()+1)
	}
	return d
}

func (t tree) paths(at string) (all []string) {
	for k, sub := range t {
		all = append(all, at+"/"+k)
		all = append(all, sub.paths(at+"/"+k)...)
	}
	sort.Strings(all)
	return all
}

func next(n number) number { return &n }

func value(n number) (v int) {
	for ; n != nil; n = *n {
		v++
	}
	return v
}

func main() {
	l := list{nil, {{}, {nil}}}
	l = append(l, list{l})
	fmt.Println(l.depth(), len(l), l, reflect.DeepEqual(l, list{}))
	t := tree{"usr": {"bin": nil, "lib": {"go": {}}}, "etc": {}}
	t["usr"]["share"] = tree{}
	fmt.Println(t.paths(""), t, len(t["usr"]))
	fmt.Println(value(next(next(next(nil)))), value(nil))
	f := visit(func(g visit) int {
		if g == nil {
			return 1
		}
		return g(nil) + 1
	})
	fmt.Println(f(f))
	x := a{b{1: nil}, b{2: {b{}}}}
	fmt.Println(x, len(x[1][2]))
	s := still{{}, {{}, {}}}
	fmt.Println(len(s), len(s[1]), s)
	var any1 any = l
	_, ok := any1.(list)
	fmt.Println(ok)
	fmt.Printf("%T %T\n", any1, t)
}
