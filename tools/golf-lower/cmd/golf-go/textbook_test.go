package main

import (
	"bytes"
	"encoding/json"
	"io"
	"os"
	"path/filepath"
	"strings"
	"testing"
)

// textbookModule makes a module of tests without a sleep at the end: each leak, and its repaired form.
func textbookModule(t *testing.T) (names []string) {
	t.Helper()
	files, err := filepath.Glob("../../testdata/textbook/*.go")
	if err != nil || len(files) < 15 {
		t.Fatalf("%d leaks, %v", len(files), err)
	}
	dir := t.TempDir()
	write := func(name, text string) {
		name = filepath.Join(dir, name)
		if err := os.MkdirAll(filepath.Dir(name), 0o777); err != nil {
			t.Fatal(err)
		}
		if err := os.WriteFile(name, []byte(text), 0o666); err != nil {
			t.Fatal(err)
		}
	}
	write("go.mod", "module textbook\n\ngo 1.24\n")
	for _, f := range files {
		text, err := os.ReadFile(f)
		if err != nil {
			t.Fatal(err)
		}
		name := strings.TrimSuffix(filepath.Base(f), ".go")
		names = append(names, name)
		leak := strings.Replace(string(text), "package main", "package "+name, 1)
		mended := strings.Replace(leak, "const mended = false", "const mended = true", 1)
		test := "package " + name + "\n\nimport \"testing\"\n\nfunc TestLeak(t *testing.T) { leak() }\n"
		for folder, text := range map[string]string{"leaky": leak, "mended": mended} {
			write(filepath.Join(folder, name, "leak.go"), text)
			write(filepath.Join(folder, name, "leak_test.go"), test)
		}
	}
	t.Chdir(dir)
	return names
}

// verdictsOf are the verdicts that events tell of, by package.
func verdictsOf(t *testing.T, out string) map[string]string {
	t.Helper()
	all := map[string]string{}
	for d := json.NewDecoder(bytes.NewReader([]byte(out))); ; {
		var e struct{ Package, Verdict string }
		if err := d.Decode(&e); err == io.EOF {
			return all
		} else if err != nil {
			t.Fatal(err)
		}
		if e.Verdict != "" {
			all[e.Package] = e.Verdict
		}
	}
}

// Each leak of the textbook is shown by the schedules that golf-go test takes, and no repaired form is reported, by a search too.
func TestTextbookLeaksAreShown(t *testing.T) {
	explorers(t)
	names := textbookModule(t)
	out, errs, status := tested(t, "-states 1000 -json ./...")
	verdicts := verdictsOf(t, out)
	for _, name := range names {
		if got := verdicts["textbook/leaky/"+name]; got != "LEAK" {
			t.Errorf("%s: %s", name, got)
		}
		if got := verdicts["textbook/mended/"+name]; got != "ok" {
			t.Errorf("%s, repaired: %s", name, got)
		}
	}
	if status != 1 {
		t.Errorf("status %d\n%s", status, errs)
	}
}
