package main

import (
	"fmt"
	"math"
)

type point struct{ x, y float64 }

func main() {
	nan := math.NaN()
	m := map[float64]int{nan: 1, nan: 2, 1: 3}
	m[nan] = 4
	sum, n := 0, 0
	for k, v := range m {
		if k != k {
			n++
		}
		sum += v
	}
	fmt.Println(len(m), n, sum)
	_, ok := m[nan]
	delete(m, nan)
	fmt.Println(ok, len(m))
	clear(m)
	fmt.Println(len(m))
	for range m {
		fmt.Println("left")
	}
	p := map[point]string{{nan, 1}: "a", {0, 1}: "b"}
	p[point{math.Copysign(0, -1), 1}] = "c"
	total := ""
	for k, v := range p {
		if k.x == 0 {
			total += v
		}
	}
	fmt.Println(len(p), total)
	i := map[any]int{nan: 1, float32(1): 2, 1.0: 3, 1: 4}
	i[nan] = 5
	sum = 0
	for _, v := range i {
		sum += v
	}
	fmt.Println(len(i), sum)
}
