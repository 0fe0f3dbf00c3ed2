package main

import (
	"bytes"
	"os"
	"os/exec"
	"path/filepath"
	"regexp"
	"slices"
	"strings"
	"testing"

	"golflower/load"
	"golflower/lower"
)

const services = "../../testdata/services/"

var verdictRE = regexp.MustCompile(`(?m)^--- (PASS|FAIL|SKIP): (\w+)`)

// The services print what they print by Go, their tests have the verdicts of go test, and no goroutine is left.
func TestServices(t *testing.T) {
	if os.Getenv("GOLF") == "" {
		t.Skip("GOLF does not name the program golf")
	}
	folders, err := filepath.Glob(services + "*")
	if err != nil || len(folders) < 10 {
		t.Fatalf("%d services, %v", len(folders), err)
	}
	for _, folder := range folders {
		t.Run(filepath.Base(folder), func(t *testing.T) {
			t.Chdir(folder)
			units, err := load.Modules(".", []string{"./..."}, true)
			if err != nil {
				t.Fatal(err)
			}
			verdicts := goTest(t)
			for _, u := range units {
				if u.Err != nil {
					t.Fatal(u.Err)
				}
				if u.Main {
					compareMain(t, u.Path)
				}
				compareTests(t, u, verdicts)
			}
		})
	}
}

// goTest has the verdicts of go test for the packages of the current folder.
func goTest(t *testing.T) map[string]string {
	t.Helper()
	out, err := exec.Command("go", "test", "-v", "./...").CombinedOutput()
	if err != nil {
		t.Fatalf("go test: %v\n%s", err, out)
	}
	verdicts := map[string]string{}
	for _, m := range verdictRE.FindAllStringSubmatch(string(out), -1) {
		verdicts[m[2]] = m[1]
	}
	return verdicts
}

// compareMain compares a main package with what it does by Go.
func compareMain(t *testing.T, path string) {
	t.Helper()
	program := filepath.Join(t.TempDir(), "program")
	if out, err := exec.Command("go", "build", "-o", program, path).CombinedOutput(); err != nil {
		t.Fatalf("go build: %v\n%s", err, out)
	}
	cmd := exec.Command(program)
	want, _ := cmd.Output()
	var out, errs bytes.Buffer
	status := run(t.Context(), []string{"run", path}, &out, &errs)
	if out.String() != string(want) || status != cmd.ProcessState.ExitCode() {
		t.Errorf("%s: status %d, output\n%s%swant status %d\n%s", path, status, out.String(), errs.String(), cmd.ProcessState.ExitCode(), want)
	}
}

// compareTests runs each test of a package alone.
func compareTests(t *testing.T, u *load.Unit, verdicts map[string]string) {
	t.Helper()
	l, err := load.New(u.Program)
	if err != nil {
		t.Fatal(err)
	}
	for _, name := range u.Tests {
		opt := words{}.options()
		opt.Tests, opt.Only = true, name
		low, err := lower.Loaded(l, opt)
		if err != nil {
			t.Errorf("%s: %v", name, err)
			continue
		}
		var out, errs bytes.Buffer
		status := execute(t.Context(), words{}, low, true, &out, &errs)
		m := verdictRE.FindStringSubmatch(out.String())
		if want := []string{verdicts[name], name}; m == nil || !slices.Equal(m[1:], want) || status != 0 {
			t.Errorf("%s: status %d, want %s\n%s%s", name, status, strings.Join(want, " "), out.String(), errs.String())
		}
	}
}
