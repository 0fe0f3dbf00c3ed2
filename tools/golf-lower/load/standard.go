package load

import (
	"embed"
	"fmt"
	"go/ast"
	"go/build"
	"go/parser"
	"os"
	"os/exec"
	"path"
	"path/filepath"
	"runtime"
	"strings"
)

// The standard library. A package is its files in GOROOT, without assembly, under models of our own: what a file of _std
// declares takes the place of what GOROOT declares. A package of which only is true has nothing but its models.
//
//go:embed all:_std
var models embed.FS

// Prefix begins the names of the files of the standard library.
const Prefix = "$std/"

// IsStandard: the file is of the standard library.
func IsStandard(file string) bool { return strings.HasPrefix(file, Prefix) }

// only are the packages of which the models are all that there is, and why.
var only = map[string]string{
	"golf":                  "what the lowering itself needs",
	"fmt":                   "printing is lowered where it is called, by the types of the operands",
	"sync":                  "the types of golf",
	"internal/sync":         "those of sync",
	"sync/atomic":           "a turn of golf is atomic",
	"os":                    "output and the end of the program",
	"runtime":               "the machine is golf",
	"runtime/pprof":         "the profile of leaked goroutines is a collection",
	"runtime/debug":         "the machine is golf",
	"testing":               "each call of a test is lowered with its line",
	"net":                   "what programs about leaks need",
	"reflect":               "only DeepEqual, which is lowered by the types of the operands",
	"internal/reflectlite":  "only the names of types",
	"internal/testlog":      "nothing is logged",
	"internal/poll":         "there are no files",
	"internal/unsafeheader": "there is no memory of bytes",
	"internal/asan":         "there is no memory of bytes",
	"internal/msan":         "there is no memory of bytes",
	"unique":                "handles need weak pointers",
	"weak":                  "collections are those of golf",
	"syscall":               "there is no system below",
	"embed":                 "there are no files",
}

// standard returns the files of a package of the standard library, nil if there is nothing of it.
func (l *Loader) standard(name string) ([]*ast.File, error) {
	files, err := l.modelsOf(name)
	if err != nil {
		return nil, err
	}
	have := map[string]bool{}
	for _, f := range files {
		declared(f, have)
	}
	var real []*ast.File
	switch {
	case name == "golf":
		real, err = l.rootFiles("runtime", []string{"softfloat64.go"})
		for _, f := range real {
			f.Name.Name = "golf"
		}
	case only[name] == "":
		var names []string
		if names, err = rootNames(name); err != nil {
			return files, nil // GOROOT has no such package
		}
		real, err = l.rootFiles(name, names)
	}
	if err != nil {
		return nil, fmt.Errorf("the sources of Go are not in GOROOT: %w", err)
	}
	for _, f := range real {
		withhold(f, have)
	}
	return append(files, real...), nil
}

// modelsOf parses the models of a package.
func (l *Loader) modelsOf(name string) ([]*ast.File, error) {
	dir := path.Join("_std", name)
	entries, err := models.ReadDir(dir)
	if err != nil {
		return nil, nil // the package has no models
	}
	var files []*ast.File
	for _, e := range entries {
		if !strings.HasSuffix(e.Name(), ".go") {
			continue
		}
		text, err := models.ReadFile(path.Join(dir, e.Name()))
		if err != nil {
			return nil, err
		}
		f, err := parser.ParseFile(l.Fset, Prefix+name+"/"+e.Name(), text, parser.SkipObjectResolution)
		if err != nil {
			return nil, err
		}
		files = append(files, f)
	}
	return files, nil
}

// goRoot is the folder of the Go that is installed.
var goRoot = installedRoot()

// root is the folder of the sources of Go.
var root = filepath.Join(goRoot, "src")

// builtRoot is the GOROOT of the build. The linker sets it in a program that is built with -trimpath, which knows no other.
var builtRoot string

// installedRoot returns the GOROOT of the environment or of the build, if it has the sources, or else what `go env` says.
func installedRoot() string {
	for _, at := range []string{runtime.GOROOT(), builtRoot} {
		if _, err := os.Stat(filepath.Join(at, "src", "runtime")); at != "" && err == nil {
			return at
		}
	}
	said, err := exec.Command("go", "env", "GOROOT").Output()
	if err != nil {
		return ""
	}
	return strings.TrimSpace(string(said))
}

// rootNames are the files of a package of GOROOT for a machine without assembly.
func rootNames(name string) ([]string, error) {
	context := build.Default
	context.GOROOT = goRoot
	context.GOARCH = "golf"
	context.GOOS = "linux"
	context.CgoEnabled = false
	context.BuildTags = []string{"purego", "math_big_pure_go"}
	p, err := context.ImportDir(filepath.Join(root, filepath.FromSlash(name)), 0)
	if err != nil {
		return nil, err
	}
	return p.GoFiles, nil
}

// rootFiles parses files of a package of GOROOT.
func (l *Loader) rootFiles(name string, names []string) ([]*ast.File, error) {
	var files []*ast.File
	for _, n := range names {
		text, err := os.ReadFile(filepath.Join(root, filepath.FromSlash(name), n))
		if err != nil {
			return nil, err
		}
		f, err := parser.ParseFile(l.Fset, Prefix+name+"/"+n, text, parser.SkipObjectResolution)
		if err != nil {
			return nil, err
		}
		l.genuine[f] = true
		files = append(files, f)
	}
	return files, nil
}

// key is the name of a function, or of a method behind the name of its receiver's type.
func key(d *ast.FuncDecl) string {
	if d.Recv == nil || len(d.Recv.List) == 0 {
		return d.Name.Name
	}
	t := d.Recv.List[0].Type
	for {
		switch x := t.(type) {
		case *ast.StarExpr:
			t = x.X
		case *ast.ParenExpr:
			t = x.X
		case *ast.IndexExpr:
			t = x.X
		case *ast.IndexListExpr:
			t = x.X
		case *ast.Ident:
			return x.Name + "." + d.Name.Name
		default:
			return "_." + d.Name.Name
		}
	}
}

// declared notes what a file declares. A type is noted with all of its methods.
func declared(f *ast.File, have map[string]bool) {
	for _, d := range f.Decls {
		switch d := d.(type) {
		case *ast.FuncDecl:
			have[key(d)] = true
		case *ast.GenDecl:
			for _, s := range d.Specs {
				switch s := s.(type) {
				case *ast.TypeSpec:
					have[s.Name.Name] = true
					have[s.Name.Name+".*"] = true
				case *ast.ValueSpec:
					for _, id := range s.Names {
						have[id.Name] = true
					}
				}
			}
		}
	}
}

// withhold takes away what the models declare: functions, types with their methods, variables and constants.
func withhold(f *ast.File, have map[string]bool) {
	var kept []ast.Decl
	for _, d := range f.Decls {
		switch d := d.(type) {
		case *ast.FuncDecl:
			name := key(d)
			recv, _, isMethod := strings.Cut(name, ".")
			if have[name] && name != "_" && name != "init" || isMethod && have[recv+".*"] {
				continue
			}
		case *ast.GenDecl:
			if withholdSpecs(d, have) {
				continue
			}
		}
		kept = append(kept, d)
	}
	f.Decls = kept
}

// withholdSpecs is withhold for a declaration of types or values; true if nothing is left. A constant keeps its place, so
// that iota counts as before.
func withholdSpecs(d *ast.GenDecl, have map[string]bool) bool {
	var kept []ast.Spec
	for _, s := range d.Specs {
		switch s := s.(type) {
		case *ast.TypeSpec:
			if have[s.Name.Name] {
				continue
			}
		case *ast.ValueSpec:
			for i, id := range s.Names {
				if have[id.Name] {
					s.Names[i] = &ast.Ident{NamePos: id.NamePos, Name: "_"}
				}
			}
		}
		kept = append(kept, s)
	}
	d.Specs = kept
	return len(kept) == 0
}
