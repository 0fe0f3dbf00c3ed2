package main

func half() (float64, float32) { return 0.5, 0.1 }

func main() {
	println(1.5, float32(0.1), 1e100, 1000000.0, -0.25)
	println(half())
	var x float64
	print(1/x, -1/x, x/x)
	println()
	panic(2.5)
}
