package main

import "fmt"

const limit = 5

type number interface {
	~int8 | ~uint64 | ~float32 | ~float64
}

func below[T number](list []T) (r []T) {
	for _, x := range list {
		if x < limit && x != 3 {
			r = append(r, x*2+limit)
		}
	}
	return r
}

func main() {
	fmt.Println(below([]float64{1, 3, 4.5, 5, 6}), below([]float32{0.5, 7}), below([]int8{-100, 3, 60}))
	fmt.Println(below([]uint64{1 << 63, 2}))
}
