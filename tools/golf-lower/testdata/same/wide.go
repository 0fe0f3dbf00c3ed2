package main

import (
	"fmt"
	"math"
	"math/bits"
)

type word uint64

func main() {
	var max uint64 = math.MaxUint64
	half := uint64(1) << 63
	for _, x := range []uint64{0, 1, 2, 255, 1 << 32, half - 1, half, half + 1, max - 1, max} {
		for _, y := range []uint64{1, 2, 3, 10, 1 << 31, half - 1, half, half + 7, max} {
			fmt.Println(x, y, x+y, x-y, x*y, x/y, x%y, x < y, x <= y, x > y, x == y, x&y, x|y, x^y, x&^y)
		}
		for _, n := range []uint{0, 1, 7, 31, 32, 62, 63, 64, 200} {
			fmt.Print(x<<n, " ", x>>n, " ", int64(x)>>n, " ")
		}
		fmt.Println(uint32(x), uint16(x), int8(x), int64(x), float64(x), -x, ^x)
	}
	fmt.Println(min(half, 3), max > 5, word(half)/3, uintptr(max)%7)
	fmt.Printf("%d %x %X %b %o %v\n", max, half, max, half, max, word(max))
	hi, lo := bits.Mul64(max, half+3)
	fmt.Println(hi, lo, bits.LeadingZeros64(half), bits.TrailingZeros64(half), bits.OnesCount64(max), bits.Reverse64(1))
	m := map[uint64]string{max: "max", half: "half", 0: "zero"}
	fmt.Println(m[max], m[half], m[0], len(m))
	switch x := max; {
	case x < 1:
		fmt.Println("less")
	case x >= half:
		fmt.Println("more")
	}
	fmt.Println(uint64(1e19), uint64(float64(half)))
}
