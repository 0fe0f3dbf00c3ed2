package shrink

import (
	"strings"
	"testing"
)

const large = `package main

import (
	"fmt"
	"strings"
)

type pair struct{ a, b int }

func unused(n int) int { return n + 1 }

func main() {
	x := unused(3)
	p := pair{1, 2}
	if x > 2 {
		for i := range 3 {
			fmt.Println(strings.ToUpper("abc"), i, p)
		}
	}
	fmt.Println(x)
	y := unused(x) + unused(4)*7
	_ = y
}
`

// What is left has the part that is asked for, and little else. Each text that is tried is a program.
func TestAProgramBecomesSmall(t *testing.T) {
	asked := 0
	got := Shrink(large, func(text string) bool {
		asked++
		return strings.Contains(text, "ToUpper(")
	})
	for _, gone := range []string{"unused", "pair", "for", "if"} {
		if strings.Contains(got, gone) {
			t.Errorf("%s is left of\n%s", gone, got)
		}
	}
	if !strings.Contains(got, `strings.ToUpper(`) || asked == 0 {
		t.Errorf("after %d texts:\n%s", asked, got)
	}
}

func TestEditsAreAppliedInTheirOrder(t *testing.T) {
	c := change{{6, 8, "x"}, {0, 2, ""}, {7, 8, "inside of the first"}}
	if got := c.apply("abcdefgh"); got != "cdefx" {
		t.Error(got)
	}
}
