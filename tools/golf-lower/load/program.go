// Package load finds the Go files of a program and type-checks them: files that are named, packages of modules as the
// command go lists them, and packages of the standard library from their sources under models of our own.
package load

import (
	"fmt"
	"go/build"
	"go/token"
	"os"
	"path/filepath"
	"sort"
	"strings"
)

// Error is a refusal with a place in the user's files.
type Error struct {
	Pos token.Position
	Msg string
}

func (e *Error) Error() string {
	if e.Pos.Line == 0 {
		return e.Msg
	}
	return fmt.Sprintf("%s:%d:%d: %s", e.Pos.Filename, e.Pos.Line, e.Pos.Column, e.Msg)
}

// Source is one Go file.
type Source struct {
	Name string
	Text []byte
}

// Package is a package of the user's: one of the main module, or of a module that it needs.
type Package struct {
	Files   []Source
	Version string // the version of the language, as go1.22; "" is that of the Go that is installed
}

// Program is what is run: the user's packages by their paths, and those with which the run begins.
type Program struct {
	Packages map[string]*Package
	Roots    []string // the main package, or those whose tests are called
}

// Single returns the program of the files of one package, by the language of the Go that is installed.
func Single(files []Source) *Program { return Versioned(files, "") }

// Versioned returns the program of the files of one package that is written in a version of the language.
func Versioned(files []Source, version string) *Program {
	return &Program{Packages: map[string]*Package{"main": {Files: files, Version: version}}, Roots: []string{"main"}}
}

// Language returns the version that the go.mod of a folder, or above it, names. It is "" if there is none, and for a file:
// the command go takes files that are named by the language of the Go that is installed.
func Language(path string) string {
	if info, err := os.Stat(path); err != nil || !info.IsDir() {
		return ""
	}
	dir, err := filepath.Abs(path)
	for ; err == nil; dir = filepath.Dir(dir) {
		if text, err := os.ReadFile(filepath.Join(dir, "go.mod")); err == nil {
			for _, line := range strings.Split(string(text), "\n") {
				if words := strings.Fields(line); len(words) >= 2 && words[0] == "go" {
					return "go" + words[1]
				}
			}
			return "go1.16" // as the command go has it for a go.mod without a version
		}
		if dir == filepath.Dir(dir) {
			break
		}
	}
	return ""
}

// Sources returns all files of the user's packages, in the order of their names.
func (p *Program) Sources() []Source {
	var all []Source
	for _, k := range p.Packages {
		all = append(all, k.Files...)
	}
	sort.Slice(all, func(i, j int) bool { return all[i].Name < all[j].Name })
	return all
}

// Files reads Go files, and of folders the files without _test.go whose build constraints hold. tests: one of the named files
// is a _test.go file.
func Files(paths []string) (sources []Source, tests bool, err error) {
	var names []string
	for _, path := range paths {
		info, err := os.Stat(path)
		if err != nil {
			return nil, false, err
		}
		if !info.IsDir() {
			names = append(names, path)
			tests = tests || strings.HasSuffix(path, "_test.go")
			continue
		}
		found, err := filepath.Glob(filepath.Join(path, "*.go"))
		if err != nil {
			return nil, false, err
		}
		sort.Strings(found)
		for _, n := range found {
			matches, err := build.Default.MatchFile(path, filepath.Base(n))
			if !strings.HasSuffix(n, "_test.go") && (matches || err != nil) { // what is wrong is told when it is loaded
				names = append(names, n)
			}
		}
	}
	for _, n := range names {
		text, err := os.ReadFile(n)
		if err != nil {
			return nil, false, err
		}
		sources = append(sources, Source{filepath.Base(n), text})
	}
	return sources, tests, nil
}
