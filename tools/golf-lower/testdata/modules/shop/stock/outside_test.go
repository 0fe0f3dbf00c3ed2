package stock_test

import (
	"errors"
	"testing"

	"example.com/shop/stock"
)

func TestNone(t *testing.T) {
	if err := new(stock.Stock).Take("plum"); !errors.Is(err, stock.ErrNone) {
		t.Error(err)
	}
}

func TestComplex(t *testing.T) {
	if c := complex(1, 2); real(c) != 1 {
		t.Error(c)
	}
}
