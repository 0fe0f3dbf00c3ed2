package tree

import (
	"fmt"
	"strings"
	"testing"
)

// chain is a chain of so many links in main.
func chain(links int) string {
	var sb strings.Builder
	sb.WriteString("package main\nfunc main() {\n")
	for i := range links {
		fmt.Fprintf(&sb, "if x == %d {\nf()\n} else ", i)
	}
	return sb.String() + "{\ng()\n}\n}"
}

// A condition of the form x == 1 has three nodes, so a link counts five.
func TestALongChainHasASemicolonBeforeEach20Links(t *testing.T) {
	for _, row := range []struct{ links, semicolons int }{{1, 0}, {20, 0}, {21, 1}, {40, 1}, {41, 2}, {500, 24}} {
		f := parse(t, chain(row.links))
		f.Chains(func(s string) string { return "golf_" + s })
		text := printed(f)
		if n := strings.Count(text, "} else if golf_chain = golf_chain; x == "); n != row.semicolons {
			t.Errorf("%d links have %d semicolons, want %d", row.links, n, row.semicolons)
		}
		if declared := strings.Contains(text, "golf_chain := 0\n"); declared != (row.semicolons > 0) {
			t.Errorf("%d links: the variable is declared: %v", row.links, declared)
		}
	}
}

func TestAChainInAChainIsCountedByItself(t *testing.T) {
	inner := "if y == 1 {\nf()\n} else if y == 2 {\ng()\n}"
	f := parse(t, strings.Replace(chain(30), "f()", inner, 1))
	f.Chains(func(s string) string { return "golf_" + s })
	text := printed(f)
	if strings.Contains(text, "golf_chain; y") || strings.Count(text, "golf_chain; x") != 1 {
		t.Error(text)
	}
}
