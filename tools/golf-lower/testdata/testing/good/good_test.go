package good

import (
	"fmt"
	"testing"
)

func equal(t testing.TB, got, want int) {
	t.Helper()
	if got != want {
		t.Fatalf("got %d, want %d", got, want)
	}
}

func TestAdd(t *testing.T) {
	for _, c := range []struct{ a, b, want int }{{1, 2, 3}, {-1, 1, 0}} {
		t.Run(fmt.Sprint(c.a, " and ", c.b), func(t *testing.T) {
			equal(t, Add(c.a, c.b), c.want)
		})
	}
}

func TestContextEndsBeforeCleanup(t *testing.T) {
	ctx := t.Context()
	t.Cleanup(func() {
		<-ctx.Done()
		fmt.Println("cleaned")
	})
	equal(t, Add(0, 0), 0)
}

func TestShort(t *testing.T) {
	if testing.Short() {
		t.Skip("short")
	}
	t.Log("long")
}

func TestSkipped(t *testing.T) {
	t.Skip("not today")
}

func BenchmarkAdd(b *testing.B) {
	equal(b, Add(1, 2), 3)
	for b.Loop() {
		Add(1, 2)
	}
}
