package stock

import "testing"

func TestLeft(t *testing.T) {
	s := &Stock{}
	s.Put("pear", 2)
	if err := s.Take("pear"); err != nil || s.left("pear") != 1 {
		t.Fatalf("%v, %d left", err, s.left("pear"))
	}
}

func TestWrong(t *testing.T) {
	s := &Stock{}
	if s.left("apple") != 1 {
		t.Errorf("%d left", s.left("apple"))
	}
}
