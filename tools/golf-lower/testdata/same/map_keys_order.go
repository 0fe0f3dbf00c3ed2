package main

import "fmt"

// A key of a map is copied in its turn, if the runtime of Go takes its address.

type two struct{ a, b int32 }

type one struct{ a int32 }

var (
	total        = 3
	small  uint8 = 3
	half   int16 = 3
	word   int32 = 3
	real         = 1.0
	key          = two{1, 1}
	single       = one{1}
	anyone any   = 1
	bytes        = []byte("a")

	bySmall  = map[uint8]int{}
	byHalf   = map[int16]int{}
	byWord   = map[int32]int{}
	byReal   = map[float64]int{}
	byKey    = map[two]int{}
	bySingle = map[one]int{}
	byAny    = map[any]int{}
	byBool   = map[bool]int{}
	byInt    = map[int]int{}
	byText   = map[string]int{}
	big      = map[int][20]int{}
)

func up() int {
	for _, n := range []int{total + 1, total + 2} {
		bySmall[uint8(n)], byHalf[int16(n)], byWord[int32(n)], byReal[float64(n)], byKey[two{int32(n), 1}] = n, n, n, n, n
		bySingle[one{int32(n)}], byAny[n], byBool[n%2 == 0], byInt[n], big[n] = n, n, n, n, [20]int{n}
		byText[string(rune('a'+n))] = n
	}
	total++
	small++
	half++
	word++
	real++
	key.a++
	single.a++
	anyone = total
	bytes[0]++
	return total
}

func show(a, b int) { fmt.Println(a, b) }

func main() {
	up()
	show(bySmall[small+1], up())
	show(byHalf[half+1], up())
	show(byWord[word+1], up())
	show(byReal[real], up())
	show(byReal[real+1], up())
	show(byKey[key], up())
	show(byKey[two{key.a + 1, 1}], up())
	show(bySingle[single], up())
	show(bySingle[one{single.a + 1}], up())
	show(byAny[anyone], up())
	show(byAny[total], up())
	show(byAny[total+1], up())
	show(byBool[total > 3], up())
	show(byInt[total+1], up())
	show(byText[string(bytes)], up())
	show(byText[string(bytes)+""], up())
	show(big[total+1][0], up())
	x, y := byReal[real+1], up()
	fmt.Println(x, y)
	byReal[real+1], byReal[real] = up(), up()
	fmt.Println(len(byReal), byReal[real], byReal[real-1])
	fmt.Println(byHalf[half+1], byWord[word+1], total > 3, up())
	if v, ok := byReal[real+1]; ok != (up() > 3) {
		fmt.Println(v, ok)
	}
}
