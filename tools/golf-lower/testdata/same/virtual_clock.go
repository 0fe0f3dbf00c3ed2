package main

import (
	"context"
	"errors"
	"fmt"
	"sync"
	"time"
)

// work takes many turns and no time.
func work(n int) float64 {
	x := 1.0
	for i := 0; i < n; i++ {
		x = x*1.0001 + float64(i)/3
	}
	return x
}

func main() {
	start := time.Now()
	ctx, cancel := context.WithTimeout(context.Background(), 3*time.Second)
	defer cancel()
	work(40)
	fmt.Println(ctx.Err())
	var wg sync.WaitGroup
	var mu sync.Mutex
	var order []int
	for i := range 5 {
		wg.Go(func() {
			time.Sleep(time.Duration(5-i) * 100 * time.Millisecond)
			work(3)
			mu.Lock()
			order = append(order, i)
			mu.Unlock()
		})
	}
	wg.Wait()
	fmt.Println(order, time.Since(start) >= 500*time.Millisecond)
	tick := time.NewTicker(20 * time.Millisecond)
	n := 0
	for n < 3 {
		select {
		case <-tick.C:
			n++
		case <-ctx.Done():
			fmt.Println("too late")
		}
	}
	tick.Stop()
	<-ctx.Done()
	fmt.Println(n, errors.Is(ctx.Err(), context.DeadlineExceeded))
	done := make(chan struct{})
	t := time.AfterFunc(time.Hour, func() { close(done) })
	fmt.Println(t.Stop(), t.Stop())
	t.Reset(time.Second)
	<-done
	c := make(chan int)
	go func() {
		defer close(c)
		for i := range 3 {
			time.Sleep(100 * time.Millisecond)
			c <- i
		}
	}()
	for i := range c {
		fmt.Println("got", i)
	}
	fmt.Println("closed")
}
