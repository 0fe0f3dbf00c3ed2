package main

import (
	"os"
	"path/filepath"
	"strings"
	"testing"
)

// Each wrong line replaces a text that its file has once, and names files of testdata/same.
func TestWrongLinesHaveTheirPlaces(t *testing.T) {
	const module = "../.."
	for i, w := range wrongs {
		text, err := os.ReadFile(filepath.Join(module, w.file))
		if err != nil {
			t.Fatal(err)
		}
		if n := strings.Count(string(text), w.old); n != 1 || w.old == w.new {
			t.Errorf("%d, %s: %s has the text %d times: %s", i+1, w.what, w.file, n, w.old)
		}
		for _, name := range strings.Split(w.same, "|") {
			if _, err := os.Stat(filepath.Join(module, "testdata/same", name+".go")); err != nil {
				t.Errorf("%d, %s: %v", i+1, w.what, err)
			}
		}
	}
}
