package main

import "fmt"

type K struct {
	a int
	b string
}

func main() {
	m := map[int]int{}
	for i := 0; i < 300; i++ {
		m[i*i%101] += i
		if i%3 == 0 {
			delete(m, i%17)
		}
	}
	s := 0
	for k, v := range m {
		s += k * v
	}
	fmt.Println(len(m), s, m[5], m[1000])
	ks := map[K]string{}
	for i := range 40 {
		ks[K{i % 7, fmt.Sprint("s", i%5)}] += "x"
	}
	fmt.Println(len(ks), ks[K{3, "s3"}], ks[K{3, "s9"}] == "")
	st := map[string][]int{}
	for i := range 50 {
		k := fmt.Sprint(i % 13)
		st[k] = append(st[k], i)
	}
	fmt.Println(len(st), st["5"], st["12"])
	for k := range m {
		if k%2 == 0 {
			delete(m, k)
		}
	}
	n := 0
	for k, v := range m {
		n += k + v
	}
	fmt.Println(len(m), n)
	clear(m)
	m[1]++
	fmt.Println(m, len(m))
	an := map[any]int{1: 1, "a": 2, K{1, "q"}: 3}
	an[K{1, "q"}]++
	fmt.Println(an[1], an["a"], an[K{1, "q"}], len(an))
	ar := map[[2]int]bool{{1, 2}: true}
	for i := range 20 {
		ar[[2]int{i, i}] = true
	}
	fmt.Println(len(ar), ar[[2]int{7, 7}], ar[[2]int{7, 8}])
	type P struct{ n int }
	a, b := &P{1}, &P{2}
	pm := map[*P]int{a: 1, b: 2}
	delete(pm, a)
	fmt.Println(pm[a], pm[b], len(pm))

	// a map that becomes small again
	sh := map[int]int{}
	for i := range 20 {
		sh[i] = i
	}
	for i := range 18 {
		delete(sh, i)
	}
	for i := 100; i < 140; i++ {
		sh[i] = i
		if i > 101 {
			delete(sh, i-1)
		}
	}
	fmt.Println(len(sh), sh[18], sh[19], sh[100], sh[139], sh[138], sh[5])
	// keys that come while a range goes on are not needed, those that go are not seen
	seen := 0
	for k := range sh {
		delete(sh, k)
		seen++
	}
	fmt.Println(seen, len(sh))
}
