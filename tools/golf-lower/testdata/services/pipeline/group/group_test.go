package group

import (
	"context"
	"errors"
	"runtime"
	"sync/atomic"
	"testing"
)

func TestTheFirstErrorEndsTheOthers(t *testing.T) {
	broken := errors.New("broken")
	g, ctx := With(context.Background())
	for range 3 {
		g.Go(func() error {
			<-ctx.Done()
			return context.Cause(ctx)
		})
	}
	g.Go(func() error { return broken })
	if err := g.Wait(); err != broken || context.Cause(ctx) != broken {
		t.Errorf("error %v, cause %v", err, context.Cause(ctx))
	}
}

func TestAPanicIsAnError(t *testing.T) {
	var g Group
	g.Go(func() error {
		var m map[string]int
		m["a"]++
		return nil
	})
	err := g.Wait()
	var re runtime.Error
	if !errors.As(err, &re) || err.Error() != "panic: assignment to entry in nil map" {
		t.Errorf("error %v", err)
	}
	g = Group{}
	g.Go(func() error { panic(7) })
	if err := g.Wait(); err == nil || err.Error() != "panic: 7" {
		t.Errorf("error %v", err)
	}
}

func TestLimit(t *testing.T) {
	g, _ := With(context.Background())
	g.Limit(2)
	var now, most atomic.Int32
	for range 6 {
		g.Go(func() error {
			n := now.Add(1)
			for old := most.Load(); n > old && !most.CompareAndSwap(old, n); old = most.Load() {
			}
			runtime.Gosched()
			now.Add(-1)
			return nil
		})
	}
	if err := g.Wait(); err != nil || most.Load() > 2 {
		t.Errorf("%v, %d at the same time", err, most.Load())
	}
	block := make(chan struct{})
	one := (&Group{}).Limit(1)
	one.Go(func() error { <-block; return nil })
	if one.TryGo(func() error { return nil }) {
		t.Error("there was room")
	}
	close(block)
	one.Wait()
}
