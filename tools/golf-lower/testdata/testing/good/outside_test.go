package good_test

import (
	"testing"

	"example.com/testing/good"
)

func TestOutside(t *testing.T) {
	if good.Add(2, 2) != 4 {
		t.Error("sum")
	}
}
