package main

import (
	"fmt"
	"math"
)

// Constants without a type are exact, and values wrap at the limits of their types.

const (
	a = iota * 1.5
	b
	_
	c, d = iota << 3, -iota
	e    = c
)

const (
	huge  = 1 << 100
	part  = huge >> 97
	ratio = huge / 3 * 3 / huge
	tiny  = 1.0 / huge
	char  = 'a' + 1
	text  = "x" + "\u00e9\xff"
)

type level uint8

const (
	low level = iota + 253
	middle
	high
)

func main() {
	fmt.Println(a, b, c, d, e, part, ratio, tiny*huge, char, len(text), text)
	fmt.Printf("%T %T %T %v %c\n", char, a, c, string(rune(char)), char)
	l := high
	l++
	fmt.Println(low, middle, high, l, l-1, -l-1, ^l)
	x := int8(math.MinInt8)
	fmt.Println(-x, x-1, x*x, x/-1, x%-1, x>>7, x<<1, uint8(x)>>1)
	u := uint64(math.MaxUint64)
	fmt.Println(u, u+2, u/3, u%10, int64(u), u>>63, u<<63, float64(u), uint32(u)*uint32(u))
	i := math.MinInt64
	fmt.Println(i, -i, i-1, i/-1, i%-1, uint64(i), int32(i>>31), int16(i>>40))
	for _, n := range []uint{0, 1, 31, 63, 64, 200} {
		fmt.Println(1<<n, int32(1)<<n, uint8(255)<<n, int8(-1)>>n, uint64(1)<<63>>n)
	}
	var f32 float32 = 16777216
	fmt.Println(f32+1, f32+2, float32(0.1), float64(float32(0.1)), f32*f32*f32*f32*f32*f32)
	zero := 0.0
	fmt.Println(1/zero, -1/zero, zero/zero == zero/zero, math.Copysign(0, -1) == 0, 1/math.Copysign(0, -1))
	fmt.Println(uint8(int(300)&0xff), 7/2, -7/2, -7%3, 7.0/2)
	const big = 1e18
	fmt.Println(int64(big), big == 1000000000000000000, 0x1p-2, 0b101, 0o17, 1_000, 'ä')
}
