package main

import "fmt"

func say(s string) int                    { fmt.Println(s); return len(s) }
func which(s string, c chan int) chan int { fmt.Println(s); return c }

var on = true

func main() {
	a, b := make(chan int), make(chan int)
	x := 3
	list := []int{1, 2, 3}
	select {
	case which("a", a) <- say("one"):
	case which("b", b) <- pick(on && say("two") > 2):
	case v := <-which("c", nil):
		fmt.Println(v)
	case which("d", nil) <- list[say("ab")] + x:
	default:
		fmt.Println("default")
	}
	c := make(chan int, 1)
	select {
	case which("e", c) <- any(say("three")).(int):
		fmt.Println("sent", <-c)
	case b <- func() int { x++; return x }():
	}
	fmt.Println(x)
	var got [2]int
	c <- 7
	select {
	case got[index("f")] = <-c:
	}
	c <- 8
	m := map[string]int{}
	var ok bool
	select {
	case m[fmt.Sprint("k", index("g"))], ok = <-c:
	case <-a:
	}
	fmt.Println(got, m, ok)
}

func index(s string) int { fmt.Println("index", s); return 1 }

func pick(b bool) int {
	if b {
		return 1
	}
	return 0
}
