package main

import "fmt"

func main() {
	fmt.Println("begun")
	for i := 0; ; i++ {
	}
}
