// Command examples runs the examples of the standard library by golf-go and writes a table: how many print what their
// comment says, and why others are refused.
//
//	go run ./tables/examples [-goroot ROOT] [-only REGEXP] [-part K] [-jobs N]
//
// An example is taken if it has a comment with its output and can be written as a program. GOLF_GO and GOLF name the
// programs. -part K takes those whose number ends in K.
package main

import (
	"bytes"
	"flag"
	"fmt"
	"go/ast"
	"go/doc"
	"go/format"
	"go/parser"
	"go/token"
	"os"
	"os/exec"
	"path/filepath"
	"sort"
	"strings"

	"golflower/tables/judge"
)

var choice = judge.Words("examples")

// packages are those whose examples are taken.
var packages = []string{"strings", "strconv", "bytes", "bufio", "sort", "slices", "maps", "container/heap", "container/list",
	"container/ring", "time", "context", "errors", "unicode", "math"}

// example is one example.
type example struct {
	name, pkg string
	text      []byte // the program, nil if there is none
	output    string
	unordered bool
}

func main() {
	flag.Parse()
	all := find()
	var names []string
	for _, e := range all {
		names = append(names, e.name)
	}
	verdicts, listed := choice.Judge(names, func(i int) judge.Verdict { return all[i].examine() })
	if !listed {
		write(all, verdicts)
	}
}

// find reads the examples of all packages.
func find() []*example {
	var all []*example
	for _, pkg := range packages {
		for _, e := range examplesOf(pkg) {
			if choice.Takes(e.name) {
				all = append(all, e)
			}
		}
	}
	return all
}

// examplesOf reads the examples of a package that have an output.
func examplesOf(pkg string) []*example {
	fset := token.NewFileSet()
	names, _ := filepath.Glob(filepath.Join(choice.Root(), "src", pkg, "*_test.go"))
	var files []*ast.File
	for _, n := range names {
		f, err := parser.ParseFile(fset, n, nil, parser.ParseComments)
		if err == nil {
			files = append(files, f)
		}
	}
	var all []*example
	for _, x := range doc.Examples(files...) {
		if x.Output == "" {
			continue
		}
		e := &example{name: pkg + ".Example" + x.Name, pkg: pkg, output: x.Output, unordered: x.Unordered}
		if x.Play != nil {
			var text bytes.Buffer
			if format.Node(&text, fset, x.Play) == nil {
				e.text = text.Bytes()
			}
		}
		all = append(all, e)
	}
	return all
}

// examine runs an example.
func (e *example) examine() judge.Verdict {
	if e.text == nil {
		return judge.Verdict{Kind: judge.Unbuilt, Text: "it cannot be written as a program"}
	}
	dir, err := os.MkdirTemp("", "examples")
	if err != nil {
		return judge.Verdict{Kind: judge.Unbuilt, Text: err.Error()}
	}
	defer os.RemoveAll(dir)
	file := filepath.Join(dir, "example.go")
	if err := os.WriteFile(file, e.text, 0o666); err != nil {
		return judge.Verdict{Kind: judge.Unbuilt, Text: err.Error()}
	}
	out, errs, v := judge.Said(file)
	if v != nil {
		return *v
	}
	got, want := strings.TrimSpace(out), strings.TrimSpace(e.output)
	if e.unordered {
		got, want = sorted(got), sorted(want)
	}
	if got != want && got == e.byGo(file) {
		return judge.Verdict{Kind: judge.Same} // the comment is about a zone of time, or about the name of the test's package
	}
	if got != want {
		return judge.Verdict{Kind: judge.Different, Text: fmt.Sprintf("%.200q, by golf-go %.200q %.200q", want, got, errs)}
	}
	return judge.Verdict{Kind: judge.Same}
}

// byGo is what the program prints by Go, in the zone that golf has.
func (e *example) byGo(file string) string {
	cmd := exec.Command("go", "run", file)
	cmd.Env = append(os.Environ(), "TZ=UTC")
	out, err := cmd.Output()
	if err != nil {
		return ""
	}
	got := strings.TrimSpace(string(out))
	if e.unordered {
		got = sorted(got)
	}
	return got
}

func sorted(s string) string {
	lines := strings.Split(s, "\n")
	sort.Strings(lines)
	return strings.Join(lines, "\n")
}

// write writes the table.
func write(all []*example, verdicts []judge.Verdict) {
	count := map[string]map[judge.Kind]int{}
	for i, e := range all {
		for _, k := range []string{e.pkg, "all"} {
			if count[k] == nil {
				count[k] = map[judge.Kind]int{}
			}
			count[k][verdicts[i].Kind]++
			count[k]["all"]++
		}
	}
	fmt.Print("| package | examples | same | refused | too many turns | different | no program |\n|---|---|---|---|---|---|---|\n")
	for _, k := range append(packages, "all") {
		c := count[k]
		fmt.Printf("| %s | %d | %d | %d | %d | %d | %d |\n", k, c["all"], c[judge.Same], c[judge.Refused], c[judge.Stopped], c[judge.Different], c[judge.Unbuilt])
	}
	fmt.Print(judge.Reasons("examples", verdicts))
}
