package tree

import (
	"go/token"
	"os"
	"strconv"
	"strings"
	"testing"
)

// parse makes the tree of a text; line k stands for place 10k.
func parse(t *testing.T, text string) *File {
	t.Helper()
	var lines []Line
	for i, l := range strings.Split(strings.TrimSpace(text), "\n") {
		lines = append(lines, Line{Text: l, Pos: token.Pos(10 * (i + 1))})
	}
	f, err := Parse(lines)
	if err != nil {
		t.Fatal(err)
	}
	return f
}

// printed is the text of the file.
func printed(f *File) string {
	var sb strings.Builder
	for _, l := range f.Print() {
		sb.WriteString(l.Text + "\n")
	}
	return sb.String()
}

// body is the text of the statements of main.
func body(text string) string {
	_, text, _ = strings.Cut(text, "func main() {\n")
	text = strings.TrimSuffix(text, "}\n")
	return strings.ReplaceAll(text, "\t", "")
}

// rows are the rows of a table: a quoted text, and the quoted text that is wanted for it.
func rows(t *testing.T, name string) map[string]string {
	t.Helper()
	text, err := os.ReadFile("testdata/" + name + ".txt")
	if err != nil {
		t.Fatal(err)
	}
	all := map[string]string{}
	for _, row := range strings.Split(strings.TrimSpace(string(text)), "\n") {
		from, to, _ := strings.Cut(row, " => ")
		in, wrong := strconv.Unquote(from)
		want, err := strconv.Unquote(to)
		if wrong != nil || err != nil {
			t.Fatalf("%s.txt: %s", name, row)
		}
		all[in] = want
	}
	return all
}

func inMain(stmts string) string { return "package main\nfunc main() {\n" + stmts + "\n}" }

func TestPrinterWritesTheBracketsThatAreNeeded(t *testing.T) {
	for in, want := range rows(t, "brackets") {
		if got := strings.TrimSpace(body(printed(parse(t, inMain(in))))); got != want {
			t.Errorf("%s: %s, want %s", in, got, want)
		}
	}
}

func TestPrinterWritesEachStatement(t *testing.T) {
	text := `package main

import "fmt"

var c chan int = make(chan int)
var d []int

type T struct {
	next *T
	n    int
}

func f(a int, b <-chan int) *T {
	for {
		break
	}
	for a < 3 {
		a++
	}
	for i := 0; i < 3; i++ {
		continue
	}
	for range d {
	}
	for i, x := range d {
		_, _ = i, x
	}
	if a == 1 {
		return nil
	} else if (&T{}) == nil {
		a += 2
	} else {
		{
			go g()
		}
	}
	select {
	case v, ok := <-b:
		_ = v
		_ = ok
	case c <- 1:
	default:
		defer g()
	}
	fmt.Println(struct{}{})
	return &T{n: 1}
}

func g() {
}
`
	if got := printed(parse(t, text)); got != text {
		t.Errorf("got\n%s", got)
	}
}

func TestPrinterKeepsThePlaces(t *testing.T) {
	f := parse(t, "package main\nfunc main() {\nif a {\nb()\n} else if c {\nd()\n} else {\ne()\n}\n}")
	var got []string
	for _, l := range f.Print() {
		if l.Text != "" && l.Pos.IsValid() {
			got = append(got, strings.TrimSpace(l.Text)+" "+string(rune('0'+int(l.Pos)/10)))
		}
	}
	want := "func main() { 2|if a { 3|b() 4|} else if c { 5|d() 6|} else { 7|e() 8|} 9|} :"
	if s := strings.Join(got, "|"); s != want {
		t.Errorf("%s, want %s", s, want)
	}
}

func TestDropUnused(t *testing.T) {
	for in, want := range rows(t, "unused") {
		f := parse(t, inMain(in))
		f.DropUnused()
		if got := strings.TrimSuffix(body(printed(f)), "\n"); got != want {
			t.Errorf("%q: %q, want %q", in, got, want)
		}
	}
}

func TestDropUnreachable(t *testing.T) {
	for in, want := range map[string]bool{ // whether the panic stays
		"return 1":            false,
		"if a {\nreturn 1\n}": true,
		"if a {\nreturn 1\n} else {\nreturn 2\n}": false,
		"for {\n}":                         false,
		"for {\nbreak\n}":                  true,
		"for a {\n}":                       true,
		"select {\ncase <-c:\nreturn 1\n}": false,
		"panic(\"a\")":                     false,
	} {
		f := parse(t, "package main\nfunc f() int {\n"+in+"\npanic(\"unreachable\")\n}")
		f.DropUnreachable()
		if got := strings.Contains(printed(f), "unreachable"); got != want {
			t.Errorf("%q: %v", in, got)
		}
	}
}

func TestLateGoroutinesWaitBeforeTheyBegin(t *testing.T) {
	f := parse(t, "package main\nfunc main() {\ngo f(1, x)\ngo f(2, x)\n}\nfunc f(a int, b *T) {\n}")
	f.Late("wait", func(s string) string { return s + "_2" })
	got := printed(f)
	want := "go f_late_2(1, x)\n\tgo f_late_2(2, x)\n"
	if !strings.Contains(got, want) || !strings.Contains(got, "func f_late_2(a int, b *T) {\n\twait()\n\tf(a, b)\n}") {
		t.Errorf("got\n%s", got)
	}
}

func TestStarts(t *testing.T) {
	for in, want := range map[string]bool{"": false, "go run(1)": false, "for {\ngo f(2)\n}": true, "go run(1)\ngo f(2)": true} {
		f := parse(t, "package main\nfunc main() {\n"+in+"\n}\nfunc run(a int) {\n}\nfunc f(a int) {\n}")
		if got := f.Starts("run"); got != want {
			t.Errorf("%q: %v", in, got)
		}
	}
}
