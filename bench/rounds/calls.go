package main

func add(a, b int) int {
	return a + b
}
func main() {
	x := 0
	for i := 0; i < 5000000; i++ {
		x = add(x, i)
	}
}
