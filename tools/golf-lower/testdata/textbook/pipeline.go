package main

import (
	"context"
	"fmt"
)

const mended = false

func lines(ctx context.Context, n int) <-chan string {
	out := make(chan string)
	go func() {
		defer close(out)
		for i := 0; i < n; i++ {
			s := fmt.Sprintf("line %d of %d", i, n)
			select {
			case out <- s:
			case <-ctx.Done():
				return
			}
		}
	}()
	return out
}

// marked does not look at the context: it stays if it has a line when the reader has gone.
func marked(ctx context.Context, in <-chan string) <-chan string {
	out := make(chan string)
	go func() {
		defer close(out)
		for s := range in {
			if mended {
				select {
				case out <- s:
				case <-ctx.Done():
					return
				}
				continue
			}
			out <- s
		}
	}()
	return out
}

func first(n int) string {
	ctx, cancel := context.WithCancel(context.Background())
	defer cancel()
	return <-marked(ctx, lines(ctx, n))
}

func leak() {
	fmt.Println(first(3))
}
