// In an empty map nothing is looked up, and Go tells of the key by other words.
package main

import "fmt"

type slices struct{ s []int }

func main() {
	var none map[any]int
	fmt.Println(none["a"])
	delete(none, 1)
	fmt.Println(none[slices{}])
}
