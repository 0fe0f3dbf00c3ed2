// Package shrink makes a Go program small that shows something: it takes away declarations, statements and parts of
// expressions as long as the program is well-typed and still shows it.
package shrink

import (
	"cmp"
	"go/ast"
	"go/format"
	"go/importer"
	"go/parser"
	"go/token"
	"go/types"
	"slices"
	"strings"
)

// mostTries is how often a program is asked for at most.
const mostTries = 600

// Shrink returns a program, not larger than the text, for which shows is true. It is true for the text.
func Shrink(text string, shows func(text string) bool) string {
	s := &shrinker{text: text, shows: shows, importer: importer.Default()}
	for s.round() {
	}
	if nice, err := format.Source([]byte(s.text)); err == nil {
		return string(nice)
	}
	return s.text
}

type shrinker struct {
	text     string
	shows    func(string) bool
	importer types.Importer
	tries    int
}

// edit puts a text in place of the bytes from one place to another.
type edit struct {
	from, to int
	text     string
}

// change is some edits that do not overlap.
type change []edit

// saves is how many bytes a change saves.
func (c change) saves() int {
	n := 0
	for _, e := range c {
		n += e.to - e.from - len(e.text)
	}
	return n
}

// apply makes the edits.
func (c change) apply(text string) string {
	c = slices.Clone(c)
	slices.SortFunc(c, func(a, b edit) int { return a.from - b.from })
	var sb strings.Builder
	at := 0
	for _, e := range c {
		if e.from < at {
			continue // it is inside of the one before
		}
		sb.WriteString(text[at:e.from] + e.text)
		at = e.to
	}
	sb.WriteString(text[at:])
	return sb.String()
}

// round tries all changes, the largest first. After one that holds it goes on with those of the new text that save less. It
// is false if none holds.
func (s *shrinker) round() bool {
	held := false
	limit := len(s.text)
	for {
		at := slices.IndexFunc(s.changes(), func(c change) bool { return c.saves() < limit })
		if at < 0 {
			return held
		}
		list := s.changes()[at:]
		before := s.text
		for _, c := range list {
			limit = c.saves()
			if s.try(c) {
				break
			}
		}
		if s.text == before {
			return held
		}
		held = true
		limit++ // others may save as much
	}
}

// try makes a change if what comes out is well-typed and shows the same.
func (s *shrinker) try(c change) bool {
	text := c.apply(s.text)
	for range 4 {
		p := s.parse(text)
		switch {
		case p == nil:
			return false
		case len(p.errs) > 0:
			more := p.repair()
			if more == nil {
				return false
			}
			text = more.apply(text)
			continue
		}
		s.tries++
		if s.tries > mostTries || !s.shows(text) {
			return false
		}
		s.text = text
		return true
	}
	return false
}

// parsed is a program with its types.
type parsed struct {
	fset *token.FileSet
	file *ast.File
	text string
	info *types.Info
	errs []types.Error
}

// parse reads and checks a text. It is nil if the text is no program.
func (s *shrinker) parse(text string) *parsed {
	p := &parsed{fset: token.NewFileSet(), text: text}
	var err error
	if p.file, err = parser.ParseFile(p.fset, "p.go", text, parser.SkipObjectResolution); err != nil {
		return nil
	}
	p.info = &types.Info{Types: map[ast.Expr]types.TypeAndValue{}, Defs: map[*ast.Ident]types.Object{}, Uses: map[*ast.Ident]types.Object{}}
	conf := types.Config{Importer: s.importer, Error: func(err error) {
		if e, ok := err.(types.Error); ok {
			p.errs = append(p.errs, e)
		}
	}}
	conf.Check("main", p.fset, []*ast.File{p.file}, p.info) // what is wrong is in errs
	return p
}

// span is where a node is in the text.
func (p *parsed) span(n ast.Node) (from, to int) {
	return p.fset.Position(n.Pos()).Offset, p.fset.Position(n.End()).Offset
}

// cut is the edit that takes a node away, or puts a text in its place.
func (p *parsed) cut(n ast.Node, text string) edit {
	from, to := p.span(n)
	return edit{from, to, text}
}

// source is the text of a node.
func (p *parsed) source(n ast.Node) string {
	from, to := p.span(n)
	return p.text[from:to]
}

// repair takes away the imports and the variables that nothing uses. It is nil if something else is wrong.
func (p *parsed) repair() change {
	var c change
	for _, e := range p.errs {
		if !e.Soft {
			return nil
		}
		without, ok := p.withoutName(e.Pos)
		if !ok {
			return nil
		}
		c = append(c, without)
	}
	return c
}

// withoutName is the edit that takes away the import, or the statement, that declares a name at a place.
func (p *parsed) withoutName(pos token.Pos) (found edit, ok bool) {
	ast.Inspect(p.file, func(n ast.Node) bool {
		if n == nil || pos < n.Pos() || pos >= n.End() {
			return n == nil || n == p.file
		}
		switch n := n.(type) {
		case *ast.ImportSpec, *ast.DeclStmt:
			found, ok = p.cut(n, ""), true
		case *ast.AssignStmt:
			if len(n.Lhs) == 1 && pos == n.Pos() {
				found, ok = p.cut(n, ""), true
			}
		case *ast.RangeStmt:
			if n.Key != nil && n.Value == nil && pos == n.Key.Pos() {
				from, _ := p.span(n.Key)
				found, ok = edit{from, p.fset.Position(n.Range).Offset, ""}, true
			}
		}
		return true
	})
	return found, ok
}

// changes are all changes that make the program smaller, the largest first.
func (s *shrinker) changes() []change {
	p := s.parse(s.text)
	if p == nil {
		return nil
	}
	var list []change
	add := func(c change) {
		if c.saves() > 0 {
			list = append(list, c)
		}
	}
	for _, d := range p.file.Decls {
		add(change{p.cut(d, "")})
	}
	ast.Inspect(p.file, func(n ast.Node) bool {
		p.ofStatements(n, add)
		if e, ok := n.(ast.Expr); ok {
			p.ofExpression(e, add)
		}
		return true
	})
	p.ofVariables(add)
	slices.SortStableFunc(list, func(a, b change) int { return cmp.Compare(b.saves(), a.saves()) })
	return list
}
