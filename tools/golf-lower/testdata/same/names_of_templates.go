package main

import "fmt"

// The names are those that the templates of slices and maps have for other things.
type N struct {
	V, E, K int
	s       []N
}

type V struct{ N }

type E struct {
	V
	HASH, EQUAL, ZERO, SIZE [2]N
}

type K struct {
	N, V, E string
	TABLE   int
}

func (n N) N_len() int { return n.V + n.E + n.K }

func N_grow(n N) N { n.V++; return n }

func main() {
	s := []N{{V: 1}}
	s = append(s, N{E: 2}, N_grow(N{K: 3}))
	s[1:][0].V = 7
	t := append(s[:1:1], s...)
	t[0].s = append(t[0].s, s[2])
	fmt.Println(s, t, s[2].N_len())
	e := []E{{V: V{N{V: 1}}}}
	e = append(e, e[0])
	e[1].HASH[1].V, e[1].ZERO[0].E = 5, 6
	e = append(e, make([]E, 1)...)
	fmt.Println(e, len(e))
	m := map[K]N{{"a", "b", "c", 1}: {V: 1}}
	for i := range 20 {
		m[K{V: fmt.Sprint(i), TABLE: i}] = N{E: i}
	}
	delete(m, K{V: "3", TABLE: 3})
	fmt.Println(len(m), m[K{"a", "b", "c", 1}], m[K{V: "7", TABLE: 7}], m[K{}])
	f := map[float64]int{0.5: 1}
	g := map[int]int{1: 2}
	h := map[float32]int{0.5: 3}
	f[-0.0]++
	h[0.5]++
	g[0]++
	fmt.Println(f, g, h)
}
