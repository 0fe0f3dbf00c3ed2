package main

import (
	"os"
	"path/filepath"
	"strings"
	"testing"
)

// program writes a program with this body of main, and returns its file.
func programOf(t *testing.T, imports, body string) string {
	t.Helper()
	file := filepath.Join(t.TempDir(), "p.go")
	text := "package main\n\nimport (\n\t\"fmt\"\n" + imports + ")\n\nfunc main() {\n" + body + "\n}\n"
	if err := os.WriteFile(file, []byte(text), 0o666); err != nil {
		t.Fatal(err)
	}
	return file
}

// A program is compared in three ways; what cannot be compared is told with the reason. The files that differ do what
// README.md lists.
func TestValidateSaysWhetherTheWaysAgree(t *testing.T) {
	explorers(t)
	for name, c := range map[string]struct {
		imports, body, want string
		status              int
	}{
		"the same": {"", `fmt.Println(1); fmt.Println("a")`,
			"the same by Go, by golf, and by Go from the lowered file: 2 lines of output, status 0\n", 0},
		"a panic": {"", `fmt.Println("a"); var m map[string]int; m["a"] = 1`,
			"the same by Go, by golf, and by Go from the lowered file: 1 line of output, panic: assignment to entry in nil map\n", 0},
		"os.Exit": {"\t\"os\"\n", `fmt.Println(1); os.Exit(7)`,
			"the same by Go, by golf, and by Go from the lowered file: 1 line of output, status 7\n", 0},
		"a clock": {"\t\"time\"\n", `time.Sleep(time.Millisecond); fmt.Println(1)`,
			"the same by Go and by golf: 1 line of output, status 0\nthe lowered file is not run by Go, since it has a clock of its own\n", 0},
		"a choice": {"", `c := make(chan int, 4); for i := range 4 { go func() { c <- i }() }; fmt.Println(<-c, <-c, <-c, <-c)`,
			"nothing is ", notCompared},
		"a difference": {"", `a := []int{1, 2, 3, 4, 5}; a = append(a, 6); fmt.Println(cap(append(a, a...)) > cap(append(a, a[:5]...)) , cap(append([]byte("abc"), 'd')))`,
			"different: by Go, line 1: `", differs},
		"no end": {"", `for i := 0; ; i++ { if i < 0 { fmt.Println(i) } }`, "nothing is compared: stopped after 10000000 turns\n", 3},
	} {
		t.Run(name, func(t *testing.T) {
			out, errs, status := said(t, "-validate "+programOf(t, c.imports, c.body))
			if !strings.HasPrefix(out, c.want) || errs != "" || status != c.status {
				t.Errorf("status %d, %q, %q, want %q", status, out, errs, c.want)
			}
		})
	}
}

// validate takes what run takes, and no tests.
func TestValidateTakesPackages(t *testing.T) {
	explorers(t)
	out, errs, status := said(t, "validate ../../testdata/several")
	if !strings.HasPrefix(out, "the same by Go") || status != 0 {
		t.Errorf("status %d, %q, %q", status, out, errs)
	}
	_, errs, status = said(t, "validate ../../testdata/several/store_test.go ../../testdata/several/store.go")
	if !strings.HasPrefix(errs, "golf-go: validate takes programs, and no tests") || status != usage {
		t.Errorf("status %d, %q", status, errs)
	}
}
