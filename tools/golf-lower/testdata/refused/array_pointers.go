package main

func main() {
	a, b := &[2]int{}, &[2]int{}
	println(a == b)
}
