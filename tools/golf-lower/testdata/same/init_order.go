package main

import (
	"fmt"
	"strconv"
	"time"
)

// These initialisers use bit operators, texts and times, which the lowering implements with tables of its own.
var (
	flags = 6 | low
	low   = mask(0xff) &^ 0xf0
	text  = strconv.Quote("a\tb") + fmt.Sprint(flags)
	begin = time.Unix(1000, 1500)
	later = begin.Add(100 * time.Millisecond)
)

func mask(n int) int { return n & 0x3c }

func main() {
	fmt.Println(flags, low, text, later.Sub(begin), later.Nanosecond())
}
