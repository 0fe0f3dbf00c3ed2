// Package stage joins functions to a pipeline.
package stage

import (
	"context"

	"example.com/pipeline/group"
)

// Source sends the values of a list.
func Source[T any](ctx context.Context, g *group.Group, values []T) <-chan T {
	out := make(chan T)
	g.Go(func() error {
		defer close(out)
		for _, v := range values {
			if err := send(ctx, out, v); err != nil {
				return err
			}
		}
		return nil
	})
	return out
}

// Map calls f for each value on some goroutines. The order is open.
func Map[A, B any](ctx context.Context, g *group.Group, width int, in <-chan A, f func(A) (B, error)) <-chan B {
	out := make(chan B, width)
	inner, ctx := group.With(ctx)
	for range width {
		inner.Go(func() error {
			for a := range in {
				b, err := f(a)
				if err != nil {
					return err
				}
				if err := send(ctx, out, b); err != nil {
					return err
				}
			}
			return nil
		})
	}
	g.Go(func() error {
		defer close(out)
		return inner.Wait()
	})
	return out
}

// Collect reads all values.
func Collect[T any](in <-chan T) (list []T) {
	for v := range in {
		list = append(list, v)
	}
	return list
}

func send[T any](ctx context.Context, out chan<- T, v T) error {
	select {
	case out <- v:
		return nil
	case <-ctx.Done():
		return context.Cause(ctx)
	}
}
