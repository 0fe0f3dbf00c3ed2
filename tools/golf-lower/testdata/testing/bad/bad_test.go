package bad

import "testing"

func TestErrors(t *testing.T) {
	t.Error("first", 1)
	t.Errorf("second %d", 2)
}

func stop(t testing.TB) {
	t.Helper()
	t.Fatal("in a helper")
}

func TestFatalInAHelper(t *testing.T) {
	stop(t)
	t.Log("not reached")
}

func atLeast(t *testing.T, got, least int) int {
	t.Helper()
	if got < least {
		differ(t, got)
	}
	return got
}

func differ(t *testing.T, got int) {
	t.Helper()
	t.Errorf("got %d", got)
}

func TestHelpersOfHelpers(t *testing.T) {
	atLeast(t, 1, 2)
	n := atLeast(t, 2, 3)
	t.Log("then", n)
}

func TestAfterIt(t *testing.T) {}

func TestParts(t *testing.T) {
	t.Run("fine", func(t *testing.T) {})
	t.Run("wrong", func(t *testing.T) { t.Error("wrong") })
}

func TestPanics(t *testing.T) {
	var list []int
	_ = list[len(list)]
}
