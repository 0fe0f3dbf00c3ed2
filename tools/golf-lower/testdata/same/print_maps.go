package main

import (
	"fmt"
	"math"
	"strconv"
)

func main() {
	fmt.Println(map[uint64]int{1 << 63: 1, 2: 2, math.MaxUint64: 3, 1: 4})
	fmt.Println(map[bool]string{true: "t", false: "f"})
	fmt.Println(map[float64]int{math.NaN(): 0, 2.5: 1, -1: 2, math.Inf(-1): 3, 0: 4})
	fmt.Println(map[float32]bool{0.5: true, 0.25: false})
	c := make(chan<- int, 2)
	c <- 1
	fmt.Println(len(c))
	f := strconv.Itoa
	fmt.Println(f(-12) + f(0))
}
