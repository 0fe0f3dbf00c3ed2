package main

import "fmt"

func main() {
	m := map[any]int{}
	var k any = []int{1}
	fmt.Println("a")
	m[k] = 1
	fmt.Println("not reached")
}
