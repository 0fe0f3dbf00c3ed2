package lower

import (
	"strings"
	"testing"
)

func TestFormsOfExpressions(t *testing.T) {
	for x, want := range map[string]string{
		"a": "name", "a.b.c": "name", "_x1": "name", "a.1": "", "a b": "", "": "", "a.": "", "a()": "", "1a": "",
		"12": "literal", "(-7)": "literal", "-7": "literal", "(7)": "literal", "7 + 1": "", "-": "", "nil": "literal",
		"true": "literal", `"a b"`: "literal", `"a\"b"`: "literal", `"a" + "b"`: "", `"a`: "", "struct{}{}": "literal",
	} {
		got := ""
		switch {
		case isLiteral(x):
			got = "literal"
		case isName(x):
			got = "name"
		}
		if got != want {
			t.Errorf("%s: %q, want %q", x, got, want)
		}
	}
}

func TestReplaceWords(t *testing.T) {
	got := replaceWords("func N_get(m *N, k K) V9 { Nx.N }", strings.ToLower)
	if want := "func n_get(m *n, k k) v9 { nx.n }"; got != want {
		t.Errorf("%s, want %s", got, want)
	}
}
