package main

import (
	"fmt"
	"time"
)

const mended = false

// fetch gives up after a millisecond, which is what the answer takes too.
func fetch(id int) (string, error) {
	room := 0
	if mended {
		room = 1
	}
	c := make(chan string, room)
	go func() {
		time.Sleep(800 * time.Microsecond)
		c <- fmt.Sprintf("answer to %d", id)
	}()
	select {
	case s := <-c:
		return s, nil
	case <-time.After(time.Millisecond):
		return "", fmt.Errorf("request %d: too late", id)
	}
}

func leak() {
	_, err := fetch(3)
	fmt.Println(err == nil || err != nil)
}
