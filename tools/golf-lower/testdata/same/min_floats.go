package main

import (
	"fmt"
	"math"
)

func main() {
	zero, nan := 0.0, math.NaN()
	minus := math.Copysign(0, -1)
	for _, p := range [][2]float64{{1, 2}, {2.5, -1}, {zero, minus}, {minus, zero}, {nan, 1}, {1, nan}, {math.Inf(-1), 0}} {
		lo, hi := min(p[0], p[1]), max(p[0], p[1])
		fmt.Println(p, lo, hi, math.Signbit(lo), math.Signbit(hi))
	}
	narrow, none := float32(minus), float32(nan)
	for _, p := range [][2]float32{{1, 2}, {2.5, -1}, {0, narrow}, {narrow, 0}, {none, 1}, {1, none}, {float32(math.Inf(1)), 0}} {
		lo, hi := min(p[0], p[1]), max(p[0], p[1])
		fmt.Println(p, lo, hi, math.Signbit(float64(lo)), math.Signbit(float64(hi)))
	}
	var x float32 = 0.5
	fmt.Println(min(x, 0.25, 3), max(x, 0.25, 3), max(2, 1.5, 7, 3))
}
