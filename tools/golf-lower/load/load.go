package load

import (
	"errors"
	"fmt"
	"go/ast"
	"go/parser"
	"go/scanner"
	"go/token"
	"go/types"
	"go/version"
	"path"
	"runtime"
	"sort"
	"strings"
)

// Pkg is a checked package.
type Pkg struct {
	Types *types.Package
	Files []*ast.File
	Inits []*types.Initializer
	User  bool // it is of the user's module, or of a module that it needs

	Desugared bool // package desugar has changed it
}

// Loader type-checks packages. It is the importer of what they import.
type Loader struct {
	Fset    *token.FileSet
	Info    *types.Info
	Context *types.Context
	List    []*Pkg // in the order of initialisation
	Roots   []*Pkg // the packages with which the run begins

	// InGeneric has the types that a generic function declares.
	InGeneric map[*types.TypeName]bool
	// Faulty has declarations that are refused once they are reached, since they name what the models lack.
	Faulty map[ast.Decl]error
	// More has the other errors of such a declaration that are no consequence of the first.
	More map[ast.Decl][]error

	pkgs    map[string]*Pkg
	program *Program
	parsed  map[string][]*ast.File // the packages that are parsed and not checked yet
	genuine map[*ast.File]bool     // files of GOROOT
}

// New loads a program.
func New(program *Program) (*Loader, error) {
	l := &Loader{
		Fset: token.NewFileSet(),
		Info: &types.Info{
			Types:      map[ast.Expr]types.TypeAndValue{},
			Defs:       map[*ast.Ident]types.Object{},
			Uses:       map[*ast.Ident]types.Object{},
			Implicits:  map[ast.Node]types.Object{},
			Selections: map[*ast.SelectorExpr]*types.Selection{},
			Instances:  map[*ast.Ident]types.Instance{},

			FileVersions: map[*ast.File]string{},
		},
		Context:   types.NewContext(),
		InGeneric: map[*types.TypeName]bool{},
		Faulty:    map[ast.Decl]error{},
		More:      map[ast.Decl][]error{},
		pkgs:      map[string]*Pkg{},
		program:   program,
		parsed:    map[string][]*ast.File{},
		genuine:   map[*ast.File]bool{},
	}
	l.prune(program.Roots)
	for _, name := range program.Roots {
		if _, err := l.Import(name); err != nil {
			return nil, first(err)
		}
		l.Roots = append(l.Roots, l.pkgs[name])
	}
	return l, nil
}

// Package returns a package that is loaded, or loads it.
func (l *Loader) Package(name string) (*Pkg, error) {
	if _, err := l.Import(name); err != nil {
		return nil, err
	}
	return l.pkgs[name], nil
}

// Loaded returns a package that is loaded, or nil.
func (l *Loader) Loaded(name string) *Pkg { return l.pkgs[name] }

// Import finds a package: one of the user's, or one of the standard library.
func (l *Loader) Import(name string) (*types.Package, error) {
	if name == "unsafe" {
		return types.Unsafe, nil
	}
	if p := l.pkgs[name]; p != nil {
		if p.Types == nil {
			return nil, fmt.Errorf("import cycle through %s", name)
		}
		return p.Types, nil
	}
	if user := l.program.Packages[name]; user != nil {
		return l.user(name, user)
	}
	files := l.parsed[name]
	if files == nil {
		var err error
		if files, err = l.standard(name); err != nil {
			return nil, err
		}
	}
	if files == nil {
		// nothing of the package is there: what is reached of it is refused
		tp := types.NewPackage(name, path.Base(name))
		tp.MarkComplete()
		l.pkgs[name] = &Pkg{Types: tp}
		return tp, nil
	}
	return l.check(name, files, &Pkg{}, installed)
}

// installed is the version of the language of the Go that built this program.
var installed = version.Lang(runtime.Version())

// Since: the Go that is installed is of this version or a newer one.
func Since(lang string) bool { return version.Compare(installed, lang) >= 0 }

// user parses and checks a package of the user's.
func (l *Loader) user(name string, p *Package) (*types.Package, error) {
	if len(p.Files) == 0 {
		return nil, &Error{Msg: "no Go file"}
	}
	files := l.parsed[name]
	if files == nil {
		for _, s := range p.Files {
			f, err := parser.ParseFile(l.Fset, s.Name, s.Text, parser.SkipObjectResolution|parser.ParseComments)
			if err != nil {
				return nil, err
			}
			files = append(files, f)
		}
	}
	for _, f := range files {
		if pos := cgo(f); pos.IsValid() {
			return nil, &Error{l.Fset.Position(pos), "import \"C\": not supported"}
		}
		if a, b := files[0].Name.Name, f.Name.Name; a != b {
			return nil, &Error{l.Fset.Position(f.Name.Pos()), fmt.Sprintf("package %s beside package %s: not supported", b, a)}
		}
	}
	lang := installed
	if version.IsValid(p.Version) {
		lang = version.Lang(p.Version)
		if version.Compare(lang, installed) > 0 {
			return nil, fmt.Errorf("package %s needs %s, and %s is installed", name, lang, runtime.Version())
		}
	}
	return l.check(name, files, &Pkg{User: true}, lang)
}

// OldLoops: the file is of a version of Go in which a loop has its variables once. A build line may name another version
// than that of the package.
func (l *Loader) OldLoops(f *ast.File) bool {
	lang := version.Lang(l.Info.FileVersions[f])
	return lang != "" && version.Compare(lang, "go1.22") < 0
}

// cgo is the place where a file imports C.
func cgo(f *ast.File) token.Pos {
	for _, i := range f.Imports {
		if i.Path.Value == `"C"` {
			return i.Pos()
		}
	}
	return token.NoPos
}

// check type-checks the files of one package. A package may name what the models lack: the declarations that do are
// refused once they are reached. Other errors in the user's files are told at once.
func (l *Loader) check(name string, files []*ast.File, p *Pkg, lang string) (*types.Package, error) {
	p.Files = files
	l.pkgs[name] = p
	var told []types.Error
	conf := types.Config{
		Importer: l, GoVersion: lang, Sizes: types.SizesFor("gc", "amd64"), FakeImportC: true,
		Error: func(err error) {
			var te types.Error
			if errors.As(err, &te) {
				told = append(told, te)
			}
		},
	}
	old := l.Info.InitOrder
	l.Info.InitOrder = nil
	tp, _ := conf.Check(name, l.Fset, files, l.Info)
	p.Inits = l.Info.InitOrder
	l.Info.InitOrder = old
	for _, te := range told {
		if err := l.judge(p, te); err != nil {
			delete(l.pkgs, name)
			return nil, err
		}
	}
	p.Types = tp
	l.List = append(l.List, p)
	for _, f := range files {
		l.noteGeneric(f)
	}
	return tp, nil
}

// judge keeps an error of the type checker for the declaration in which it is, or returns it if the user's file is wrong.
// An error behind another one in a declaration is taken for a consequence.
func (l *Loader) judge(p *Pkg, te types.Error) error {
	d := declAt(p.Files, te.Pos)
	if d != nil && l.Faulty[d] != nil {
		if strings.HasPrefix(te.Msg, "undefined: ") && lacking(te.Msg) {
			l.More[d] = append(l.More[d], first(te))
		}
		return nil
	}
	if p.User && !lacking(te.Msg) {
		return te
	}
	if d != nil {
		l.Faulty[d] = first(te)
	}
	return nil
}

// declAt is the declaration around a place.
func declAt(files []*ast.File, pos token.Pos) ast.Decl {
	for _, f := range files {
		if pos < f.FileStart || pos > f.FileEnd {
			continue
		}
		i := sort.Search(len(f.Decls), func(i int) bool { return f.Decls[i].End() > pos })
		if i < len(f.Decls) {
			return f.Decls[i]
		}
	}
	return nil
}

// lacking: the text of the type checker may come from what the models lack.
func lacking(msg string) bool {
	if name, ok := strings.CutPrefix(msg, "undefined: "); ok {
		return strings.Contains(name, ".")
	}
	for _, s := range []string{"has no field or method", "missing method", "does not implement", "unknown field", "is not a type"} {
		if strings.Contains(msg, s) {
			return true
		}
	}
	return strings.HasPrefix(msg, "could not import")
}

// noteGeneric notes the types that generic functions declare.
func (l *Loader) noteGeneric(f *ast.File) {
	for _, d := range f.Decls {
		fd, ok := d.(*ast.FuncDecl)
		if !ok || fd.Body == nil {
			continue
		}
		fn, ok := l.Info.Defs[fd.Name].(*types.Func)
		if !ok || fn.Signature().TypeParams().Len()+fn.Signature().RecvTypeParams().Len() == 0 {
			continue
		}
		ast.Inspect(fd.Body, func(n ast.Node) bool {
			if ts, ok := n.(*ast.TypeSpec); ok {
				if tn, ok := l.Info.Defs[ts.Name].(*types.TypeName); ok {
					l.InGeneric[tn] = true
				}
			}
			return true
		})
	}
}

// first is the first error of the parser or of the type checker, with its place.
func first(err error) error {
	var list scanner.ErrorList
	if errors.As(err, &list) && len(list) > 0 {
		return &Error{list[0].Pos, list[0].Msg}
	}
	var te types.Error
	if !errors.As(err, &te) {
		return err
	}
	msg := te.Msg
	if name, ok := strings.CutPrefix(msg, "undefined: "); ok && strings.Contains(name, ".") {
		msg = name + ": not supported, or no name of its package"
	}
	if _, why, ok := strings.Cut(msg, " ("); ok && strings.HasPrefix(msg, "could not import ") {
		msg = strings.TrimSuffix(why, ")")
	}
	return &Error{te.Fset.Position(te.Pos), msg}
}
