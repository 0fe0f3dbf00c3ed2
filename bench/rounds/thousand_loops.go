package main

func spin() {
	x := 0
	for i := 0; i < 4000000; i++ {
		x = x*3 + i
	}
}
func main() {
	for i := 0; i < 1000; i++ {
		go spin()
	}
	spin()
}
