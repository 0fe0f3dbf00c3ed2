package endless

import "testing"

func TestEndless(t *testing.T) {
	for n := 0; n >= 0; n++ {
	}
}
