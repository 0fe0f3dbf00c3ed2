package stage_test

import (
	"context"
	"fmt"
	"slices"
	"testing"

	"example.com/pipeline/group"
	"example.com/pipeline/stage"
)

func square(n int) (int, error) {
	if n < 0 {
		return 0, fmt.Errorf("%d is negative", n)
	}
	return n * n, nil
}

func TestAllValuesComeThrough(t *testing.T) {
	g, ctx := group.With(context.Background())
	squares := stage.Map(ctx, g, 3, stage.Source(ctx, g, []int{3, 1, 2, 5, 4}), square)
	got := stage.Collect(squares)
	if err := g.Wait(); err != nil {
		t.Fatal(err)
	}
	slices.Sort(got)
	if !slices.Equal(got, []int{1, 4, 9, 16, 25}) {
		t.Errorf("got %v", got)
	}
}

func TestAnErrorEndsThePipeline(t *testing.T) {
	g, ctx := group.With(context.Background())
	stage.Collect(stage.Map(ctx, g, 2, stage.Source(ctx, g, []int{1, -2, 3, 4, 5, 6, 7, 8}), square))
	if err := g.Wait(); err == nil || err.Error() != "-2 is negative" {
		t.Errorf("error %v", err)
	}
}
