// Command modules runs the tests of modules of others, as Debian has them, and writes a table: how many pass by golf, as
// they do by Go, and why others do not.
//
//	go run ./tables/modules [-only REGEXP] [-list]
//
// Debian's packages have no go.mod: each is copied to a folder of its own, with one. GOLF names the program golf.
package main

import (
	"bytes"
	"flag"
	"fmt"
	"os"
	"os/exec"
	"path/filepath"
	"regexp"
	"sort"
	"strings"

	"golflower/load"
	"golflower/lower"
	"golflower/tables/judge"
)

var (
	sources = flag.String("sources", "/usr/share/gocode/src", "where Debian has the sources")
	only    = flag.String("only", "", "the packages whose paths match")
	list    = flag.Bool("list", false, "a line for each test, in place of the table")
)

// modules are the paths of the modules with Debian's packages.
var modules = [][2]string{
	{"golang.org/x/sync", "golang-golang-x-sync-dev"},
	{"golang.org/x/time", "golang-golang-x-time-dev"},
	{"github.com/hashicorp/golang-lru", "golang-github-hashicorp-golang-lru-dev"},
	{"github.com/patrickmn/go-cache", "golang-github-patrickmn-go-cache-dev"},
	{"github.com/google/btree", "golang-github-google-btree-dev"},
	{"github.com/tevino/abool", "golang-github-tevino-abool-dev"},
}

func main() {
	flag.Parse()
	if _, err := exec.LookPath(os.Getenv("GOLF")); err != nil {
		fmt.Fprintln(os.Stderr, "GOLF names no program that can be started:", err)
		os.Exit(6)
	}
	if !*list {
		fmt.Print("| package | Debian's version | tests | pass | refused | too many turns | fail |\n|---|---|---|---|---|---|---|\n")
	}
	reasons := map[string]int{}
	for _, m := range modules {
		if err := module(m[0], m[1], reasons); err != nil {
			fmt.Fprintln(os.Stderr, m[0], err)
		}
	}
	if *list {
		return
	}
	fmt.Print("\n| refused because of | tests |\n|---|---|\n")
	var keys []string
	for k := range reasons {
		keys = append(keys, k)
	}
	sort.Strings(keys)
	for _, k := range keys {
		fmt.Printf("| %s | %d |\n", k, reasons[k])
	}
}

// module runs the tests of one module.
func module(path, debian string, reasons map[string]int) error {
	dir, err := os.MkdirTemp("", "modules")
	if err != nil {
		return err
	}
	defer os.RemoveAll(dir)
	if err := os.CopyFS(dir, os.DirFS(filepath.Join(*sources, path))); err != nil {
		return err
	}
	if err := os.WriteFile(filepath.Join(dir, "go.mod"), []byte("module "+path+"\n\ngo 1.18\n"), 0o666); err != nil {
		return err
	}
	units, err := load.Modules(dir, []string{"./..."}, true)
	if err != nil {
		return err
	}
	version, _ := exec.Command("dpkg-query", "-W", "-f", "${Version}", debian).Output()
	re := regexp.MustCompile(*only)
	for _, u := range units {
		if len(u.Tests) == 0 || !re.MatchString(u.Path) {
			continue
		}
		count := map[judge.Kind]int{}
		for _, name := range u.Tests {
			v := test(u, name)
			count[v.Kind]++
			if v.Kind == judge.Refused {
				reasons[judge.Reason(v.Text)]++
			}
			if *list {
				fmt.Printf("%s\t%s\t%s\t%s\n", u.Path, name, v.Kind, v.Text)
			}
		}
		if !*list {
			fmt.Printf("| %s | %s | %d | %d | %d | %d | %d |\n", u.Path, version, len(u.Tests), count[judge.Same],
				count[judge.Refused], count[judge.Stopped], count[judge.Different])
		}
	}
	return nil
}

// test lowers and runs one test.
func test(u *load.Unit, name string) judge.Verdict {
	if u.Err != nil {
		return judge.Verdict{Kind: judge.Refused, Text: u.Err.Error()}
	}
	low, err := lower.Lower(u.Program, lower.Options{Tests: true, Only: name})
	if err != nil {
		return judge.Verdict{Kind: judge.Refused, Text: err.Error()}
	}
	cmd := exec.Command(os.Getenv("GOLF"), "run", "--turns", "10000000")
	cmd.Stdin = strings.NewReader(low.Text)
	var out, errs, text bytes.Buffer
	cmd.Stdout, cmd.Stderr = &out, &errs
	cmd.Run() // how it ends is told in errs
	d := &lower.Decoder{Out: &text, Err: &text}
	d.Copy(&out)
	told, _, _ := strings.Cut(errs.String(), "\n")
	switch {
	case strings.HasPrefix(told, "stopped after "):
		return judge.Verdict{Kind: judge.Stopped, Text: told}
	case strings.HasPrefix(told, "refused: "), strings.Contains(d.PanicText(told), "panic: lowering: "):
		return judge.Verdict{Kind: judge.Refused, Text: "golf: " + d.PanicText(told)}
	case strings.Contains(text.String(), "--- PASS: "+name), strings.Contains(text.String(), "--- SKIP: "+name):
		return judge.Verdict{Kind: judge.Same}
	}
	return judge.Verdict{Kind: judge.Different, Text: fmt.Sprintf("%.150q %.100q", text.String(), d.PanicText(told))}
}
