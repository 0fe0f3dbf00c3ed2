package main

import "fmt"

const mended = false

// page takes the cached page or the fresh one, whichever is first. Nobody receives the cached one if the fresh one is.
func page(id int) string {
	room := 0
	if mended {
		room = 1
	}
	cached := make(chan string, room)
	fresh := make(chan string, 1)
	go func() { fresh <- fmt.Sprintf("page %d, made at %s", id, "noon") }()
	go func() { cached <- "old page" }()
	select {
	case p := <-cached:
		return p
	case p := <-fresh:
		return p
	}
}

func leak() {
	fmt.Println(len(page(7)) > 0)
}
