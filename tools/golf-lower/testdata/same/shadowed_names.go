package main

import "fmt"

// Names that Go declares itself can be those of anything.

type string struct{ n int }

func (s string) len() int { return s.n }

func len(xs ...int) int {
	n := 0
	for range xs {
		n++
	}
	return n * 10
}

func append(a, b int) int { return a - b }

const iota = 7

type error interface{ len() int }

func panic(x any) { fmt.Println("no panic:", x) }

func max(a int) (true bool) {
	true = a > 2
	return
}

func main() {
	var nil error = string{3}
	fmt.Println(nil.len(), len(1, 2), append(5, 2), iota, max(3), max(1))
	panic("at all")
	int := func(x float64) float64 { return x / 2 }
	fmt.Println(int(3))
	for any, make := range []rune("ab") {
		new := any + 1
		fmt.Println(new, make)
	}
	type any struct{ copy, delete int32 }
	x := any{1, 2}
	x.copy, x.delete = x.delete, x.copy
	fmt.Println(x)
	{
		fmt := "inner"
		_ = fmt
	}
	switch close := 3; close {
	case iota - 4:
		fmt.Println("equal")
	}
	func(len, cap int32) { fmt.Println(len, cap) }(4, 5)
	_ = nil
}
