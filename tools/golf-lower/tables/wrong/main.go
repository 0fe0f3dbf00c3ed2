// Command wrong plants wrong lines in the lowering, one at a time, and writes which tests refuse each.
//
//	go run ./tables/wrong [-from N] [-to N] [-programs N]
//	go run ./tables/wrong -programs 0 > tables/wrong.md
//
// A copy of the module gets the wrong line. Then the programs of tables/fuzz are tried. If none of them differs, the files of
// testdata/same that have what the line breaks are compared. GOLF and GOLF_EXPLORE name the programs. The status is 1 if a wrong line passes.
package main

import (
	"errors"
	"flag"
	"fmt"
	"os"
	"os/exec"
	"path/filepath"
	"strings"
)

var (
	from     = flag.Int("from", 1, "the first wrong line")
	to       = flag.Int("to", len(wrongs), "the last wrong line")
	programs = flag.Int("programs", 100, "how many programs of tables/fuzz are tried")
)

func main() {
	flag.Parse()
	head()
	passed := 0
	for i, w := range wrongs {
		if i+1 < *from || i+1 > *to {
			continue
		}
		fuzz, same, err := w.try()
		if err != nil {
			fmt.Fprintf(os.Stderr, "%d, %s: %v\n", i+1, w.what, err)
			os.Exit(6)
		}
		if len(fuzz)+len(same) == 0 {
			passed++
		}
		row(i+1, w, fuzz, same)
	}
	if passed > 0 {
		fmt.Fprintf(os.Stderr, "%d wrong lines pass\n", passed)
		os.Exit(1)
	}
}

// head writes the head of the table.
func head() {
	if *programs == 0 {
		fmt.Print("| wrong line | files of `testdata/same` that differ |\n|---|---|\n")
		return
	}
	fmt.Print("| wrong line | seeds of `tables/fuzz` that differ | if none: files of `testdata/same` that differ |\n|---|---|---|\n")
}

// row writes what refuses a wrong line.
func row(number int, w wrong, fuzz, same []string) {
	switch {
	case *programs == 0:
		fmt.Printf("| %d. %s | %s |\n", number, w.what, some(same))
	case len(fuzz) > 0:
		fmt.Printf("| %d. %s | %s | |\n", number, w.what, some(fuzz))
	default:
		fmt.Printf("| %d. %s | %s | %s |\n", number, w.what, some(fuzz), some(same))
	}
}

// some are the first names of a list, with how many there are.
func some(list []string) string {
	const first = 3
	switch {
	case len(list) == 0:
		return "none"
	case len(list) <= first:
		return fmt.Sprintf("%d: %s", len(list), strings.Join(list, ", "))
	}
	return fmt.Sprintf("%d: %s, ..", len(list), strings.Join(list[:first], ", "))
}

// wrong is a wrong line: in a file a text is replaced by another one.
// same names the files of testdata/same that have what it breaks.
type wrong struct {
	what, same, file, old, new string
}

// try tries the tests on a copy of the module with the wrong line.
func (w wrong) try() (fuzz, same []string, err error) {
	dir, err := os.MkdirTemp("", "wrong")
	if err != nil {
		return nil, nil, err
	}
	defer os.RemoveAll(dir)
	if err := w.plant(dir); err != nil {
		return nil, nil, err
	}
	if *programs > 0 {
		if fuzz, err = w.fuzz(dir); err != nil || len(fuzz) > 0 {
			return fuzz, nil, err
		}
	}
	out, err := command(dir, "go", "test", "-trimpath", "-count=1", "-run", "TestSame/^("+w.same+")$", ".").Output()
	return nil, names(string(out), "    --- FAIL: TestSame/", " "), exited(err)
}

// fuzz tries the programs of tables/fuzz on the copy, and returns the seeds of those that differ.
func (w wrong) fuzz(dir string) ([]string, error) {
	golfGo := filepath.Join(dir, "golf-go")
	if out, err := command(dir, "go", "build", "-trimpath", "-o", golfGo, "./cmd/golf-go").CombinedOutput(); err != nil {
		return nil, fmt.Errorf("%w\n%s", err, out)
	}
	cmd := command(dir, "go", "run", "-trimpath", "./tables/fuzz", "-n", fmt.Sprint(*programs))
	cmd.Env = append(os.Environ(), "GOLF_GO="+golfGo)
	out, err := cmd.Output()
	return names(string(out), "seed ", ":"), exited(err)
}

// exited is nil if a command has ended by itself, with any status.
func exited(err error) error {
	var ee *exec.ExitError
	if errors.As(err, &ee) {
		return nil
	}
	return err
}

// plant copies the module to a folder, with the wrong line.
func (w wrong) plant(dir string) error {
	if err := os.CopyFS(dir, os.DirFS(".")); err != nil {
		return err
	}
	file := filepath.Join(dir, w.file)
	text, err := os.ReadFile(file)
	if err != nil {
		return err
	}
	if n := strings.Count(string(text), w.old); n != 1 {
		return fmt.Errorf("%s has the line %d times: %s", w.file, n, w.old)
	}
	return os.WriteFile(file, []byte(strings.Replace(string(text), w.old, w.new, 1)), 0o666)
}

func command(dir, name string, args ...string) *exec.Cmd {
	cmd := exec.Command(name, args...)
	cmd.Dir = dir
	return cmd
}

// names are what stands between two texts in the lines of an output.
func names(out, before, after string) []string {
	var list []string
	for _, l := range strings.Split(out, "\n") {
		if rest, ok := strings.CutPrefix(l, before); ok {
			name, _, _ := strings.Cut(rest, after)
			list = append(list, name)
		}
	}
	return list
}
