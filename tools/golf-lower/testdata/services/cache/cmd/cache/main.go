// Command cache loads prices.
package main

import (
	"context"
	"errors"
	"fmt"
	"time"

	"example.com/cache"
)

type sku struct {
	shop string
	n    int
}

var errUnknown = errors.New("unknown")

func price(ctx context.Context, k sku) (float64, error) {
	select {
	case <-ctx.Done():
		return 0, context.Cause(ctx)
	case <-time.After(time.Duration(k.n) * time.Millisecond):
	}
	if k.n < 0 {
		return 0, fmt.Errorf("%+v: %w", k, errUnknown)
	}
	return float64(k.n) / 4, nil
}

func main() {
	c := cache.New(2, time.Minute, time.Second, price)
	for _, n := range []int{1, 2, 1, 3, 1, 2, -1} {
		v, err := c.Get(context.Background(), sku{"north", n})
		fmt.Println(n, v, err, errors.Is(err, errUnknown))
	}
	ctx, cancel := context.WithTimeoutCause(context.Background(), time.Millisecond, errors.New("the shop is closed"))
	defer cancel()
	_, err := c.Get(ctx, sku{"south", 1000})
	fmt.Println(err)
	fmt.Printf("%+v\n", c.Stats())
	c.Close()
}
