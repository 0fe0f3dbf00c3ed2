package main

type C chan C

func main() {
	var c C
	_ = len(c)
}
