// Command sum lets some goroutines share two connections.
package main

import (
	"context"
	"fmt"
	"sync"
	"time"

	"example.com/connpool"
	"example.com/connpool/wire"
)

func main() {
	server := wire.NewServer(2)
	pool := connpool.New(connpool.Config{Dial: server.Dial, MaxOpen: 2, MaxIdle: 2, MaxAge: time.Minute})
	ctx, cancel := context.WithTimeout(context.Background(), time.Second)
	defer cancel()
	sums := make([]uint32, 6)
	var wg sync.WaitGroup
	for i := range sums {
		wg.Add(1)
		go func() {
			defer wg.Done()
			c, err := pool.Get(ctx)
			if err != nil {
				fmt.Println(err)
				return
			}
			defer func() { pool.Put(c, err) }()
			sums[i], err = c.Call(uint16(i), uint16(i*i), 1000)
		}()
	}
	wg.Wait()
	fmt.Println(sums, server.Open() <= 2)
	pool.Close()
	fmt.Println("open:", server.Open())
	_, err := pool.Get(ctx)
	fmt.Println(err)
}
