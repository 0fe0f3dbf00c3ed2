package main

import (
	"errors"
	"fmt"
	"reflect"
	"sort"
	"sync"
	"sync/atomic"
)

type celsius float64

type grid [2][3]int

func bump(p *int) { *p += 10 }

func largest[T int | string](list ...T) T {
	m := list[0]
	for _, x := range list {
		m = max(m, x)
	}
	return m
}

type table struct {
	counts []int
	names  [2]string
	temps  map[string][]celsius
}

func main() {
	s := []int{1, 2, 3}
	p := &s[1]
	*p = 20
	s = append(s, 4)
	*p = 21
	q := &s[1]
	bump(q)
	fmt.Println(s, *p, *q, p == q, q == &s[1], &s[0] == &s[1])
	t := s[1:3]
	bump(&t[0])
	copy(t, []int{7, 8, 9})
	fmt.Println(s, t, len(t), cap(t))
	for i, x := range s {
		s[i] = x * 2
	}
	for i := range s {
		bump(&s[i])
	}
	fmt.Println(s, largest(s...), largest(3, 1, 2), largest("a", "c", "b"))
	var g grid
	bump(&g[1][2])
	h := g
	bump(&h[1][2])
	fmt.Println(g, h, g == h, g != grid{})
	row := &g[0]
	bump(&row[1])
	fmt.Println(g, *row)
	clear(s[:2])
	s = append(s[:1], s[2:]...)
	fmt.Println(s, reflect.DeepEqual(s, []int{0, 26, 18}))

	tb := table{counts: make([]int, 2, 4), names: [2]string{"a", "b"}, temps: map[string][]celsius{"x": {1.5, 2}}}
	n := &tb.names[1]
	*n += "!"
	u := tb
	*n += "?"
	u.counts[1]++
	c := &tb.temps["x"][0]
	*c += 0.25
	fmt.Printf("%v %+v\n", tb, u)

	var hits [4]int64
	var wg sync.WaitGroup
	for i := range 8 {
		wg.Add(1)
		go func() {
			defer wg.Done()
			atomic.AddInt64(&hits[i%4], int64(i))
		}()
	}
	wg.Wait()
	fmt.Println(hits, atomic.LoadInt64(&hits[2]))

	errs := []error{errors.New("one"), nil}
	e := &errs[1]
	*e = errors.New("two")
	fmt.Println(errors.Join(errs...), len(errs))
	words := []string{"c", "a", "b"}
	w := &words[0]
	sort.Strings(words)
	fmt.Println(words, *w)
	ptrs := []*int{&s[0], p, nil}
	pp := &ptrs[2]
	*pp = &s[1]
	*ptrs[2] = 99
	fmt.Println(s, len(ptrs), *ptrs[1])
	var any1, any2 any = [2]int{1, 2}, [2]int{1, 2}
	m := map[[2]int]string{{1, 2}: "k"}
	fmt.Println(any1 == any2, m[[2]int{1, 2}], any1)
	ch := make(chan []int, 1)
	ch <- s
	bump(&(<-ch)[0])
	fmt.Println(s)
	bs := []bool{true, false}
	b := &bs[1]
	*b = !*b
	fmt.Println(bs)
	i := 0
	func() {
		defer func() { fmt.Println(recover()) }()
		x := &s[i+5]
		*x = 1
	}()
}
