package main

func main() {
	x := 0
	for i := 0; i < 5000000; i++ {
		x = x*3 + i
	}
}
