package main

import "fmt"

// A string that is converted to bytes or runes is copied in its turn, and so is a struct or array without an address that is
// compared.

type pair struct{ a, b int }

var (
	text = "abc"
	num  = 1
	big  = [2]int{1, 2}
)

func change() int {
	text = "changed"
	num++
	big[0]++
	return num
}

func show(list ...any) { fmt.Println(list...) }

func bytes(b []byte, n int) string { return fmt.Sprint(string(b), n) }
func runes(b []rune, n int) string { return fmt.Sprint(string(b), n) }
func same(b bool, n int) string    { return fmt.Sprint(b, n) }

func main() {
	show(bytes([]byte(text), change()))
	text = "abc"
	show(runes([]rune(text), change()))
	text = "abc"
	show(bytes([]byte(text+"d"), change()))
	text = "abc"
	show(len([]rune(text)), change())
	show(same(pair{num, 1} == pair{3, 1}, change()))
	show(same([2]int{num, 1} != [2]int{3, 1}, change()))
	show(same(big == [2]int{num, 2}, change()))
	show(same(pair{num, change()} == pair{num, change()}, num))
}
