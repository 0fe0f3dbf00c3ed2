package load

import (
	"go/ast"
	"go/parser"
	"go/token"
	"io/fs"
	"maps"
	"path"
	"slices"
	"strings"
)

// Model is a package of the standard library of which something is a model.
type Model struct {
	Package  string
	Why      string
	Only     bool     // nothing of it comes from Go's sources
	Declares []string // what the models declare
}

// Models returns the packages that have models, in the order of their names.
func Models() ([]Model, error) {
	all := map[string]*Model{}
	for name, why := range only {
		all[name] = &Model{Package: name, Why: why, Only: true}
	}
	err := fs.WalkDir(models, "_std", func(file string, d fs.DirEntry, err error) error {
		if err != nil || d.IsDir() || !strings.HasSuffix(file, ".go") {
			return err
		}
		text, err := models.ReadFile(file)
		if err != nil {
			return err
		}
		f, err := parser.ParseFile(token.NewFileSet(), file, text, parser.ParseComments)
		if err != nil {
			return err
		}
		name := strings.TrimPrefix(path.Dir(file), "_std/")
		if all[name] == nil {
			all[name] = &Model{Package: name}
		}
		all[name].add(f)
		return nil
	})
	if err != nil {
		return nil, err
	}
	var list []Model
	for _, name := range slices.Sorted(maps.Keys(all)) {
		slices.Sort(all[name].Declares)
		list = append(list, *all[name])
	}
	return list, nil
}

// add adds what a file declares, and the reason in its comment.
func (m *Model) add(f *ast.File) {
	if _, why, ok := strings.Cut(f.Doc.Text(), ": "); ok && m.Why == "" {
		why, _, _ = strings.Cut(strings.ReplaceAll(why, "\n", " "), ".")
		m.Why = strings.TrimSuffix(strings.TrimSpace(why), "; the rest is Go's own")
	}
	have := map[string]bool{}
	declared(f, have)
	for name := range have {
		if !strings.HasSuffix(name, ".*") && name != "_" {
			m.Declares = append(m.Declares, name)
		}
	}
}
