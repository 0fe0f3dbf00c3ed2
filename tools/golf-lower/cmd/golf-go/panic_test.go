package main

import (
	"fmt"
	"os"
	"os/exec"
	"path/filepath"
	"regexp"
	"strconv"
	"strings"
	"testing"
)

// panics are statements of main that end the program, mostly in code that the lowering has made.
var panics = []string{
	`var m map[string]int; m["a"] = 1`,
	`s := []int{1}; i := 3; _ = s[1:i]`,
	`var f func(); f()`,
	`var e error; _ = e.Error()`,
	`var x any = 1; _ = x.(string)`,
	`s := "abc"; i := 7; _ = s[i]`,
	`s := "abc"; s += fmt.Sprint(1); i := 7; _ = s[i]`,
	`var p *struct{ n int }; p.n = 1`,
	`a := []int{}; i := 0; a[i]++`,
	`x := 0; _ = 1 / x`,
	`var y int8; _ = y / y`,
	`var a *[3]int; _ = a[1]`,
	`var a *[3]int; a[1]++`,
	`var a *[3]int; _ = a[:]`,
	`var a *[3]int; _ = *a`,
	`var a *[3]int; *a = [3]int{}`,
	`var a *[3]int; for _, v := range a { fmt.Println(v) }`,
	`c := make(chan int); close(c); close(c)`,
	`var w sync.WaitGroup; w.Done()`,
	`var m sync.Mutex; m.Unlock()`,
	`panic(fmt.Sprint(1))`,
	`a := []int{1}; a = append(a, 2); i := 9; _ = a[i]`,
	`a := []int{1}; a = append(a, 2); i := 9; a[i] = 3`,
	`var a [3]int; i := 3; a[i] = 1`,
	`s := -1; _ = 1 << s`,
	`var a, b any = []int{}, []int{}; _ = a == b`,
	`var c chan int; close(c)`,
	`var a *[3]int; _ = a[1]`,
	`var fs []func(); fs = append(fs, nil); fs[0]()`,
	`c := sync.NewCond(&sync.Mutex{}); c.Wait()`,
	`m := map[any]int{}; var k any = []int{}; m[k]++`,
	`_ = strings.Repeat("a", -1)`,
	`defer fmt.Println("deferred"); var m map[string]int; m["a"] = 1`,
	`m := map[string]int{}; defer func() { m["b"] = 2; fmt.Println(len(m)) }(); var none map[string]int; none["a"] = 1`,
	`m := map[string]int{"x": 1}; for i := range 3 { m["a"] = i }; put(nil, 3)`,
	`each([]int{1, 2}, func(i int) { var m map[string]int; if i == 2 { put(m, i) } })`,
	`done := make(chan bool); go func() { defer close(done); put(nil, 1) }(); <-done; select {}`,
}

// panicking is a program with one of them.
const panicking = `package main

import (
	"fmt"
	"strings"
	"sync"
)

func main() {
	fmt.Println("begun")
	%s
}
` + helpers

const helpers = `
var mu sync.Mutex

func put(m map[string]int, i int) {
	defer func() { fmt.Println(strings.ToUpper("put"), len(m)) }()
	if i == 1 {
		i++
	}
	m["c"] = i
}

func each(list []int, f func(int)) {
	for _, i := range list {
		f(i)
	}
}
`

// choosing begins a program that is asked for one of them by a word.
const choosing = `package main

import (
	"fmt"
	"os"
	"strconv"
	"strings"
	"sync"
)

func main() {
	n, _ := strconv.Atoi(os.Args[1])
	cases[n]()
}

var cases = []func(){
`

var goLineRE = regexp.MustCompile(`/p\.go:(\d+)`)

// linesByGo are the lines of the program panicking at which the statements end, as Go tells them.
func linesByGo(t *testing.T) []string {
	t.Helper()
	var sb strings.Builder
	sb.WriteString(choosing)
	for _, stmt := range panics {
		fmt.Fprintf(&sb, "\tfunc() { %s },\n", stmt)
	}
	sb.WriteString("}\n" + helpers)
	dir := t.TempDir()
	program, file := filepath.Join(dir, "p"), filepath.Join(dir, "p.go")
	if err := os.WriteFile(file, []byte(sb.String()), 0o666); err != nil {
		t.Fatal(err)
	}
	if said, err := exec.Command("go", "build", "-o", program, file).CombinedOutput(); err != nil {
		t.Fatalf("%v\n%s", err, said)
	}
	first := strings.Count(choosing, "\n") + 1 // of the statements
	behind := lineOf(panicking, "func put(") - lineOf(sb.String(), "func put(")
	var lines []string
	for i := range panics {
		said, _ := exec.Command(program, fmt.Sprint(i)).CombinedOutput() // its status is that of a panic
		_, trace, _ := strings.Cut(string(said), "\ngoroutine ")
		m := goLineRE.FindStringSubmatch(trace)
		if m == nil {
			t.Fatalf("%s: Go tells no line\n%s", panics[i], said)
		}
		line, _ := strconv.Atoi(m[1])
		if line == first+i {
			line = lineOf(panicking, "%s")
		} else {
			line += behind
		}
		lines = append(lines, fmt.Sprint(line))
	}
	return lines
}

// lineOf is the line of a text with this part.
func lineOf(text, part string) int {
	before, _, _ := strings.Cut(text, part)
	return strings.Count(before, "\n") + 1
}

// A panic is told with the line of the user's, as Go tells it.
func TestAPanicHasTheLineOfTheUser(t *testing.T) {
	explorers(t)
	lines := linesByGo(t)
	for i, stmt := range panics {
		t.Run(stmt, func(t *testing.T) {
			file := filepath.Join(t.TempDir(), "p.go")
			if err := os.WriteFile(file, fmt.Appendf(nil, panicking, stmt), 0o666); err != nil {
				t.Fatal(err)
			}
			out, errs, status := said(t, file)
			want := regexp.MustCompile(`(?m)^(panic|fatal error): .*\(goroutine \d+, p\.go:` + lines[i] + `:\d+ in `)
			if !want.MatchString(errs) || status != 2 {
				t.Errorf("status %d, want line %s\n%s%s", status, lines[i], out, errs)
			}
		})
	}
}
