package main

import (
	"errors"
	"fmt"
)

type color int

func (c color) String() string { return "color" }

type point struct {
	X, Y int
	name string
}

func main() {
	for _, n := range []int{0, 7, -42, 255, 123456} {
		fmt.Printf("[%d|%5d|%-5d|%05d|%+d|% d|%x|%#x|%#X|%o|%#o|%b|%#b|%.4d|%8.3d|%c|%q|%U|%#U]\n",
			n, n, n, n, n, n, n, n, n, n, n, n, n, n, n, 'a'+n%20, 'b', n&0xffff, 0x1F600)
	}
	for _, s := range []string{"", "a", "héllo", "a\tb"} {
		fmt.Printf("[%s|%8s|%-8s|%.2s|%5.1s|%q|%x|%X|%10q|%v|%6v]\n", s, s, s, s, s, s, s, s, s, s, s)
	}
	for _, x := range []float64{0, 1.5, -2.25, 1e21, 123456.789} {
		fmt.Printf("[%v|%f|%.2f|%8.1f|%-8.1f|%08.2f|%+.1f|%e|%g|%.3g|%6v]\n", x, x, x, x, x, x, x, x, x, x, x)
	}
	p := point{1, -2, "p"}
	fmt.Printf("[%v|%+v|%3v|%T|%v|%+v]\n", p, p, p, p, &p, &p)
	fmt.Printf("[%4v|%x|%q|%v|%8v|%3v]\n", []int{1, 22}, []int{10, 11}, []string{"a", "b"}, [2]bool{true}, color(3), map[string]int{"k": 5})
	var e error
	var a any
	fmt.Printf("[%v|%7v|%v|%8v|%T|%12T|%t|%6t]\n", e, a, errors.New("e"), errors.New("err"), a, 1, true, false)
	for _, x := range []any{1, "s", 2.5, nil, color(1), []int{3}, int8(-3), uint64(1 << 63)} {
		fmt.Printf("[%v|%6v|%-6v|%T]", x, x, x, x)
	}
	fmt.Println()
	fmt.Printf("%5s|%-7s|%7.2s|%x|%s\n", []byte("ab"), errors.New("no"), color(1), []byte{1, 255}, []string{"x", "y"})
	fmt.Printf("%3c|%-3c|%5t|%5q\n", 'x', 'y', true, 'z')
}
