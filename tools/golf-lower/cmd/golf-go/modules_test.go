package main

import (
	"bytes"
	"os"
	"os/exec"
	"strings"
	"testing"
)

const modules = "../../testdata/modules/"

// inModule runs golf-go in the folder of a module.
func inModule(t *testing.T, module, line string) (out, errs string, status int) {
	t.Helper()
	t.Chdir(modules + module)
	var o, e bytes.Buffer
	status = run(t.Context(), strings.Fields(line), &o, &e)
	return o.String(), loweredRE.ReplaceAllString(countsRE.ReplaceAllString(e.String(), "$1"), "line N of the lowered"), status
}

// A package of a module prints what it prints by go run, and its leak is told by the file of its package.
func TestRunTakesAPackageAsGoDoes(t *testing.T) {
	if os.Getenv("GOLF") == "" {
		t.Skip("GOLF does not name the program golf")
	}
	for _, c := range []struct{ module, pkg, errs string }{
		{"shop", "./cmd/shop", "collection 1: reported 1\n" +
			"goroutine 2: chan receive at cmd/shop/main.go:28:2 in deliver, started at cmd/shop/main.go:22:2 in main, on orders (made at cmd/shop/main.go:21:12 in main)\n" +
			"golf-go: 2 collections, 1 goroutine reported\n"},
		{"shop", "example.com/shop/cmd/shop", ""},
		{"shop", "cmd/shop/main.go cmd/shop/refund.go", ""},
		{"old", ".", "golf-go: 1 collection, 0 goroutines reported\n"},
		{"old", "main.go", ""},
	} {
		t.Run(c.module+" "+c.pkg, func(t *testing.T) {
			cmd := exec.Command("go", append([]string{"run"}, strings.Fields(c.pkg)...)...)
			cmd.Dir = modules + c.module
			want, err := cmd.Output()
			if err != nil {
				t.Fatal(err)
			}
			out, errs, _ := inModule(t, c.module, "run "+c.pkg)
			if out != string(want) {
				t.Errorf("output\n%swant\n%s", out, want)
			}
			if c.errs != "" && errs != c.errs {
				t.Errorf("standard error\n%swant\n%s", errs, c.errs)
			}
		})
	}
}

func TestPackagesThatCannotBeRun(t *testing.T) {
	for _, c := range []struct {
		module, words, errs string
		status              int
	}{
		{"shop", "run ./stock", "refused: package example.com/shop/stock: only package main has a function to run\n", 4},
		{"shop", "run ./nowhere", "refused: ", 4},
		{"missing", "run .", "refused: main.go:3:8: ", 4},
		{"shop", "run ./cmd/shop --clock fast", "golf-go: --clock fast: the clocks are strict, which is the default, and loose (", 5},
	} {
		t.Run(c.words, func(t *testing.T) {
			_, errs, status := inModule(t, c.module, c.words)
			if !strings.HasPrefix(errs, c.errs) || status != c.status {
				t.Errorf("status %d, want %d\n%s", status, c.status, errs)
			}
		})
	}
}

// The command that fetches a package is in the refusal.
func TestAMissingPackageIsToldWithItsCommand(t *testing.T) {
	_, errs, _ := inModule(t, "missing", "run .")
	if !strings.Contains(errs, "go get ") && !strings.Contains(errs, "go mod download") {
		t.Error(errs)
	}
}

func TestCheckTellsWhatIsRefused(t *testing.T) {
	out, errs, status := inModule(t, "shop", "check ./...")
	wantOut := "example.com/shop/internal/price: 0 of 0 accepted\n" +
		"example.com/shop/stock: 3 of 4 accepted\n" +
		"example.com/shop/cmd/shop: 1 of 1 accepted\n"
	wantErrs := "refused: type complex128: not supported\n\tstock/outside_test.go:17:5, reached from TestComplex\n"
	if out != wantOut || !strings.HasPrefix(errs, wantErrs) || status != 4 {
		t.Errorf("status %d\n%s%s", status, out, errs)
	}
}

// A folder without a word of the family has the files whose constraints hold, and the language of its go.mod.
func TestAFolderIsReadAsGoReadsIt(t *testing.T) {
	if os.Getenv("GOLF") == "" {
		t.Skip("GOLF does not name the program golf")
	}
	for _, folder := range []string{"../../testdata/constraints", modules + "old"} {
		cmd := exec.Command("go", "run", ".")
		cmd.Dir = folder
		want, err := cmd.Output()
		if err != nil {
			t.Fatal(err)
		}
		if out, errs, status := said(t, folder); out != string(want) || status != 0 {
			t.Errorf("%s: status %d\n%swant\n%s%s", folder, status, out, want, errs)
		}
	}
}
