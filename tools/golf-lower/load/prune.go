package load

import (
	"go/ast"
	"go/parser"
	"go/token"
	"slices"
	"strconv"
	"strings"
)

// Most of a package of the standard library is not reached by a program. Before a program is checked, its packages are
// parsed, and a function or variable of the standard library whose name occurs nowhere in what can be reached loses its body
// or is left out. Names are compared without regard to packages and types, so more is kept than is reached, never less.

// always are the names of methods that the lowering asks for by itself.
var always = []string{"String", "Error", "init", "main", "_"}

// whole are the packages that stay as they are: the lowering calls functions of them by itself, or loads packages later that
// do. So do all packages in the folder internal.
var whole = map[string]bool{"golf": true, "strconv": true, "errors": true, "fmt": true, "runtime": true, "io": true, "os": true,
	"sync": true, "math": true, "math/bits": true, "unicode/utf8": true}

// pruner finds the names that can be reached.
type pruner struct {
	l     *Loader
	names map[string]bool
	// waiting has the declarations of the standard library that nobody has named yet, by each of their names.
	waiting map[string][]ast.Node
	cuts    map[*ast.File]bool // the files that are cut
}

// prune parses the packages of the program, and cuts what is not reached.
func (l *Loader) prune(roots []string) {
	p := &pruner{l: l, names: map[string]bool{}, waiting: map[string][]ast.Node{}, cuts: map[*ast.File]bool{}}
	seen := map[string]bool{}
	for work := slices.Clone(roots); len(work) > 0; {
		name := work[len(work)-1]
		work = work[:len(work)-1]
		if seen[name] || name == "unsafe" || name == "C" {
			continue
		}
		seen[name] = true
		for _, f := range p.files(name) {
			if l.genuine[f] && !whole[name] && !strings.HasPrefix(name, "internal/") {
				p.cuts[f] = true
			}
			for _, i := range f.Imports {
				path, _ := strconv.Unquote(i.Path.Value)
				work = append(work, path)
			}
		}
	}
	var files []*ast.File
	for _, list := range l.parsed {
		files = append(files, list...)
	}
	p.all(files)
}

// all cuts what no file reaches.
func (p *pruner) all(files []*ast.File) {
	if len(p.cuts) == 0 {
		return
	}
	for _, n := range always {
		p.names[n] = true
	}
	for _, f := range files {
		p.file(f)
	}
	for f := range p.cuts {
		p.cut(f)
	}
}

// files parses the files of a package, and keeps them for the check. What is wrong is told when the package is checked.
func (p *pruner) files(name string) (files []*ast.File) {
	l := p.l
	if user := l.program.Packages[name]; user != nil {
		for _, s := range user.Files {
			f, err := parser.ParseFile(l.Fset, s.Name, s.Text, parser.SkipObjectResolution|parser.ParseComments)
			if err != nil {
				return nil
			}
			files = append(files, f)
		}
	} else if files, _ = l.standard(name); files == nil {
		return nil
	}
	l.parsed[name] = files
	return files
}

// file notes what a file declares.
func (p *pruner) file(f *ast.File) {
	for _, d := range f.Decls {
		if !p.cuts[f] {
			p.reach(d)
			continue
		}
		switch d := d.(type) {
		case *ast.FuncDecl:
			p.reach(d.Type)
			p.wait(d.Name.Name, d)
		case *ast.GenDecl:
			for _, s := range d.Specs {
				v, ok := s.(*ast.ValueSpec)
				if !ok || d.Tok != token.VAR {
					p.reach(s)
					continue
				}
				for _, id := range v.Names {
					p.wait(id.Name, s)
				}
			}
		}
	}
}

// wait lets a declaration wait until its name is reached.
func (p *pruner) wait(name string, n ast.Node) {
	if p.names[name] {
		p.reach(n)
		return
	}
	p.waiting[name] = append(p.waiting[name], n)
}

// reach notes the names in a node, and what waits for them.
func (p *pruner) reach(n ast.Node) {
	for work := []ast.Node{n}; len(work) > 0; {
		n := work[len(work)-1]
		work = work[:len(work)-1]
		ast.Inspect(n, func(n ast.Node) bool {
			if id, ok := n.(*ast.Ident); ok && !p.names[id.Name] {
				p.names[id.Name] = true
				work = append(work, p.waiting[id.Name]...)
				delete(p.waiting, id.Name)
			}
			return true
		})
	}
}

// cut takes away what nobody has named in a file: the bodies of functions, and variables.
func (p *pruner) cut(f *ast.File) {
	kept := f.Decls[:0]
	for _, d := range f.Decls {
		switch d := d.(type) {
		case *ast.FuncDecl:
			if !p.names[d.Name.Name] {
				d.Body = nil
			}
		case *ast.GenDecl:
			if d.Tok == token.VAR && !p.variables(d) {
				continue
			}
		}
		kept = append(kept, d)
	}
	f.Decls = kept
}

// variables cuts the variables of a declaration; it says whether some are left.
func (p *pruner) variables(d *ast.GenDecl) bool {
	kept := d.Specs[:0]
	for _, s := range d.Specs {
		for _, id := range s.(*ast.ValueSpec).Names {
			if p.names[id.Name] {
				kept = append(kept, s)
				break
			}
		}
	}
	d.Specs = kept
	return len(kept) > 0
}
