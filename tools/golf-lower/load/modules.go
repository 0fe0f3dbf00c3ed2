package load

import (
	"bytes"
	"encoding/json"
	"errors"
	"fmt"
	"go/ast"
	"go/parser"
	"go/token"
	"io"
	"os"
	"os/exec"
	"path"
	"path/filepath"
	"slices"
	"strconv"
	"strings"
	"unicode"
	"unicode/utf8"
)

// Unit is a package that is run, or whose tests are called.
type Unit struct {
	Path    string
	Dir     string
	Main    bool
	Program *Program
	Tests   []string // the names of its tests, in the order of the files
	Err     error    // why the package cannot be loaded
}

// NeedsModules: the files import a package that is not of the standard library.
func NeedsModules(files []Source) bool {
	fset := token.NewFileSet()
	for _, s := range files {
		f, err := parser.ParseFile(fset, s.Name, s.Text, parser.ImportsOnly)
		if err != nil {
			continue // told when the file is loaded
		}
		for _, i := range f.Imports {
			name, _ := strconv.Unquote(i.Path.Value)
			if !isStandardPackage(name) {
				return true
			}
		}
	}
	return false
}

// isStandardPackage: the package has a model or a folder in GOROOT.
func isStandardPackage(name string) bool {
	if name == "unsafe" || name == "C" {
		return true
	}
	if _, err := models.ReadDir(path.Join("_std", name)); err == nil {
		return true
	}
	_, err := os.Stat(filepath.Join(root, filepath.FromSlash(name)))
	return err == nil
}

// listed is what go list tells of a package.
type listed struct {
	ImportPath   string
	Name         string
	Dir          string
	ForTest      string
	GoFiles      []string
	CgoFiles     []string
	TestGoFiles  []string
	XTestGoFiles []string
	Standard     bool
	DepOnly      bool
	Module       *struct{ Path, GoVersion string }
	Error        *struct{ Pos, Err string }
}

const listFields = "ImportPath,Name,Dir,ForTest,GoFiles,CgoFiles,TestGoFiles,XTestGoFiles,Standard,DepOnly,Module,Error"

// Modules loads the packages that patterns match in a folder, with all packages that they need, as the command go lists
// them. It reads what is there and fetches nothing. With tests it loads the tests of the packages too.
func Modules(dir string, patterns []string, tests bool) ([]*Unit, error) {
	list, err := goList(dir, patterns, tests)
	if err != nil {
		return nil, err
	}
	root, err := filepath.Abs(dir)
	if err != nil {
		return nil, err
	}
	m := &modules{root: root, packages: map[string]*Package{}}
	for _, l := range list {
		if err := m.dependency(l); err != nil {
			return nil, err
		}
	}
	var units []*Unit
	for _, l := range list {
		if !l.DepOnly {
			units = append(units, m.unit(l, tests))
		}
	}
	return units, nil
}

// goList runs go list without the network. The packages of the standard library and those that are made for tests are
// left out.
func goList(dir string, patterns []string, tests bool) ([]*listed, error) {
	args := []string{"list", "-e", "-json=" + listFields, "-deps"}
	if tests {
		args = append(args, "-test")
	}
	cmd := exec.Command("go", append(append(args, "--"), patterns...)...)
	cmd.Dir = dir
	cmd.Env = append(os.Environ(), "GOPROXY=off", "GOTOOLCHAIN=local", "GOFLAGS="+os.Getenv("GOFLAGS"))
	var told bytes.Buffer
	cmd.Stderr = &told
	out, err := cmd.Output()
	if errors.Is(err, exec.ErrNotFound) {
		return nil, errors.New("the command go is not there, and packages are found by it: name the files, as golf-go FILE.go")
	}
	if err != nil {
		return nil, fmt.Errorf("go list: %s", strings.TrimSpace(told.String()))
	}
	var list []*listed
	for d := json.NewDecoder(bytes.NewReader(out)); ; {
		l := &listed{}
		if err := d.Decode(l); err == io.EOF {
			return list, nil
		} else if err != nil {
			return nil, fmt.Errorf("go list: %w", err)
		}
		if !l.Standard && l.ForTest == "" && !strings.HasSuffix(l.ImportPath, ".test") {
			list = append(list, l)
		}
	}
}

// modules are the packages that go list has told of.
type modules struct {
	root     string // names of files are told from here
	packages map[string]*Package
	missing  error // the first package that is not there
}

// dependency reads the files of a package.
func (m *modules) dependency(l *listed) error {
	if l.Error != nil {
		if m.missing == nil {
			m.missing = missing(l)
		}
		return nil
	}
	p := &Package{}
	if l.Module != nil && l.Module.GoVersion != "" {
		p.Version = "go" + l.Module.GoVersion
	}
	var err error
	p.Files, err = m.read(l.Dir, append(slices.Clone(l.GoFiles), l.CgoFiles...))
	m.packages[l.ImportPath] = p
	return err
}

// missing is why a package cannot be loaded, with the command that fetches it if there is one.
func missing(l *listed) error {
	text := strings.TrimSpace(l.Error.Err)
	if strings.Contains(text, "GOPROXY=off") {
		text = fmt.Sprintf("package %s is not on this machine; to fetch it:\n\tgo mod download", l.ImportPath)
	}
	if l.Error.Pos != "" {
		text = l.Error.Pos + ": " + text
	}
	return errors.New(text)
}

// unit is a package that the patterns match, as a program.
func (m *modules) unit(l *listed, tests bool) *Unit {
	u := &Unit{Path: l.ImportPath, Dir: l.Dir, Main: l.Name == "main", Err: m.missing}
	if l.Error != nil {
		u.Err = missing(l)
	}
	if u.Err != nil {
		return u
	}
	u.Program = &Program{Packages: m.packages, Roots: []string{l.ImportPath}}
	if tests {
		u.Err = m.withTests(u, l)
	}
	return u
}

// withTests adds the files of tests to a unit.
func (m *modules) withTests(u *Unit, l *listed) error {
	inside, err := m.read(l.Dir, l.TestGoFiles)
	if err != nil {
		return err
	}
	outside, err := m.read(l.Dir, l.XTestGoFiles)
	if err != nil {
		return err
	}
	all := map[string]*Package{}
	for path, p := range m.packages {
		all[path] = p
	}
	own := m.packages[l.ImportPath]
	all[l.ImportPath] = &Package{Files: append(slices.Clone(own.Files), inside...), Version: own.Version}
	u.Program.Packages = all
	if len(outside) > 0 {
		all[l.ImportPath+"_test"] = &Package{Files: outside, Version: own.Version}
		u.Program.Roots = append(u.Program.Roots, l.ImportPath+"_test")
	}
	u.Tests = TestNames(append(slices.Clone(inside), outside...))
	return nil
}

// read reads files of a folder. Their names are those from the folder of the command, if these are shorter.
func (m *modules) read(dir string, names []string) ([]Source, error) {
	var files []Source
	for _, n := range names {
		full := filepath.Join(dir, n)
		text, err := os.ReadFile(full)
		if err != nil {
			return nil, err
		}
		name := full
		if rel, err := filepath.Rel(m.root, full); err == nil && len(rel) < len(full) {
			name = rel
		}
		files = append(files, Source{name, text})
	}
	return files, nil
}

// TestNames returns the names of the tests that files declare.
func TestNames(files []Source) []string {
	var names []string
	fset := token.NewFileSet()
	for _, s := range files {
		f, err := parser.ParseFile(fset, s.Name, s.Text, parser.SkipObjectResolution)
		if err != nil {
			continue // told when the file is loaded
		}
		for _, d := range f.Decls {
			if fd, ok := d.(*ast.FuncDecl); ok && isTest(fd) {
				names = append(names, fd.Name.Name)
			}
		}
	}
	return names
}

// isTest: the declaration has the form of a test.
func isTest(fd *ast.FuncDecl) bool {
	return fd.Recv == nil && IsTestName(fd.Name.Name) && fd.Type.Params.NumFields() == 1 && fd.Type.TypeParams == nil
}

// IsTestName: the command go test takes a function of this name as a test.
func IsTestName(name string) bool {
	rest, ok := strings.CutPrefix(name, "Test")
	first, _ := utf8.DecodeRuneInString(rest)
	return ok && name != "TestMain" && !unicode.IsLower(first)
}
