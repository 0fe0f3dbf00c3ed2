package main

import "fmt"

func refund() {
	defer func() { fmt.Println("refund:", recover()) }()
	var none map[string]int
	none["pear"]++
}
