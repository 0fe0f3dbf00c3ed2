package main

import (
	"context"
	"fmt"
)

const mended = false

type request struct {
	id    int
	reply chan string
}

// serve answers one request after the other. A caller that has given up never reads its answer.
func serve(requests chan request, done chan bool) {
	defer close(done)
	for r := range requests {
		r.reply <- fmt.Sprintf("answer to %d", r.id)
	}
}

func call(ctx context.Context, requests chan request, id int) error {
	room := 0
	if mended {
		room = 1
	}
	r := request{id, make(chan string, room)}
	select {
	case requests <- r:
	case <-ctx.Done():
		return ctx.Err()
	}
	select {
	case <-r.reply:
		return nil
	case <-ctx.Done():
		return ctx.Err()
	}
}

func leak() {
	ctx, cancel := context.WithCancel(context.Background())
	requests, done := make(chan request), make(chan bool)
	go serve(requests, done)
	go func() {
		if reason := fmt.Sprintf("user %d has left", 7); len(reason) > 2 {
			cancel()
		}
	}()
	call(ctx, requests, 1)
	close(requests)
}
