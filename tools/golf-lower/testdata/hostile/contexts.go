package main

import (
	"context"
	"fmt"
	"os"
	"runtime/pprof"
	"time"
)

// What waits for a context that somebody can still cancel is live. A function after a context is no goroutine.

func wait(ctx context.Context, c chan int) {
	select {
	case <-ctx.Done():
	case c <- 1:
	}
}

var stop context.CancelFunc

func main() {
	ctx, cancel := context.WithCancel(context.Background())
	stop = cancel
	go wait(ctx, make(chan int))
	go wait(context.Background(), make(chan int))
	go wait(context.WithoutCancel(ctx), nil)
	context.AfterFunc(ctx, func() { fmt.Println("never") })
	context.AfterFunc(context.TODO(), func() { fmt.Println("never") })
	lost, end := context.WithCancel(context.WithValue(context.Background(), "k", 1))
	go wait(lost, make(chan int))
	_ = end
	leaks()
}

// leaks writes Go's profile of leaked goroutines. By golf-go it is a collection.
func leaks() {
	time.Sleep(20 * time.Millisecond)
	pprof.Lookup("goroutineleak").WriteTo(os.Stdout, 2)
}
