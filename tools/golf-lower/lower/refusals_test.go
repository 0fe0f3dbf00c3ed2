package lower

import (
	"fmt"
	"slices"
	"testing"

	"golflower/load"
)

// refusalsOf are the places and the texts of what is refused of a file.
func refusalsOf(t *testing.T, text string) (told []string) {
	t.Helper()
	l, err := load.New(load.Single([]load.Source{{Name: "a.go", Text: []byte("package main\n" + text)}}))
	if err != nil {
		t.Fatal(err)
	}
	for _, e := range Refusals(l, Options{}) {
		told = append(told, fmt.Sprint(e.Pos.Line, ": ", e.Msg))
	}
	return told
}

func TestAllRefusalsAreFound(t *testing.T) {
	const not = ": not supported"
	for _, c := range []struct {
		name, text string
		want       []string
	}{
		{"none", "func main() { println(1) }", nil},
		{"statements", "func main() {\nc := make(chan int)\n_ = cap(c)\nprintln(cap(c))\n}",
			[]string{"4: cap of a channel" + not, "5: cap of a channel" + not}},
		{"the bodies of a statement with a refused head",
			"func main() {\nc := make(chan int)\nif cap(c) > 0 {\n_ = cap(c)\n} else {\nfunc() {\n_ = cap(c)\n}()\n}\n}",
			[]string{"4: cap of a channel" + not, "5: cap of a channel" + not, "8: cap of a channel" + not}},
		{"functions that are called", "import \"os\"\nfunc f() { os.Open(\"a\"); os.Create(\"b\") }\nfunc main() { f() }",
			[]string{"3: os.Open: not supported, or no name of its package", "3: os.Create: not supported, or no name of its package"}},
		{"functions that nobody calls", "import \"os\"\nfunc f() { os.Open(\"a\") }\nfunc main() {}", nil},
		{"addresses", "func main() {\ns := []byte{1}\np := &s[0]\nq := &s[0]\nprintln(p == q)\n}",
			[]string{"4: address of an element of type byte" + not, "5: address of an element of type byte" + not}},
	} {
		t.Run(c.name, func(t *testing.T) {
			if got := refusalsOf(t, c.text); !slices.Equal(got, c.want) {
				t.Errorf("%q, want %q", got, c.want)
			}
		})
	}
}
