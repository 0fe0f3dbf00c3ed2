package tree

import (
	"go/ast"
	"go/format"
	"go/token"
	"strings"
)

// The printer writes each statement on a line of its own, with the brackets that the order of operators needs and no
// others.

// Print returns the lines of the file.
func (f *File) Print() []Line {
	p := &printer{file: f}
	p.line(token.NoPos, "package main")
	for i, d := range f.Tree.Decls {
		if i == 0 || !together(f.Tree.Decls[i-1], d) {
			p.line(token.NoPos, "")
		}
		p.decl(d)
	}
	p.format()
	return p.lines
}

// together: no empty line is between two declarations, since both are variables or both are imports.
func together(a, b ast.Decl) bool {
	g, ok := a.(*ast.GenDecl)
	h, also := b.(*ast.GenDecl)
	return ok && also && g.Tok == h.Tok && g.Tok != token.TYPE
}

type printer struct {
	file  *File
	lines []Line
	depth int
}

func (p *printer) line(pos token.Pos, text string) {
	if text != "" {
		text = strings.Repeat("\t", p.depth) + text
	}
	p.lines = append(p.lines, Line{text, p.file.Place(pos)})
}

// format lays the text out as gofmt does, if that keeps the lines.
func (p *printer) format() {
	var sb strings.Builder
	for _, l := range p.lines {
		sb.WriteString(l.Text)
		sb.WriteByte('\n')
	}
	text, err := format.Source([]byte(sb.String()))
	if err != nil {
		return
	}
	lines := strings.Split(strings.TrimSuffix(string(text), "\n"), "\n")
	if len(lines) != len(p.lines) {
		return
	}
	for i, l := range lines {
		p.lines[i].Text = l
	}
}

func (p *printer) decl(d ast.Decl) {
	switch d := d.(type) {
	case *ast.GenDecl:
		for _, s := range d.Specs {
			p.spec(d, s)
		}
	case *ast.FuncDecl:
		p.line(d.Pos(), "func "+d.Name.Name+signature(d.Type)+" {")
		p.block(d.Body)
	}
}

func (p *printer) spec(d *ast.GenDecl, s ast.Spec) {
	switch s := s.(type) {
	case *ast.ImportSpec:
		p.line(token.NoPos, "import "+s.Path.Value)
	case *ast.ValueSpec:
		p.line(d.Pos(), variable(s))
	case *ast.TypeSpec:
		fields := s.Type.(*ast.StructType).Fields
		p.line(d.Pos(), "type "+s.Name.Name+" struct {")
		p.depth++
		for _, fd := range fields.List {
			p.line(fd.Pos(), fd.Names[0].Name+" "+expr(fd.Type))
		}
		p.depth--
		p.line(fields.Closing, "}")
	}
}

func variable(s *ast.ValueSpec) string {
	text := "var " + s.Names[0].Name
	if s.Type != nil {
		text += " " + expr(s.Type)
	}
	if len(s.Values) > 0 {
		text += " = " + expr(s.Values[0])
	}
	return text
}

func signature(t *ast.FuncType) string {
	var params []string
	for _, f := range t.Params.List {
		for _, n := range f.Names {
			params = append(params, n.Name+" "+expr(f.Type))
		}
	}
	text := "(" + strings.Join(params, ", ") + ")"
	if t.Results != nil && len(t.Results.List) > 0 {
		text += " " + expr(t.Results.List[0].Type)
	}
	return text
}

// block writes the statements of a block and its last bracket.
func (p *printer) block(b *ast.BlockStmt) {
	p.list(b.List)
	p.line(b.Rbrace, "}")
}

func (p *printer) list(list []ast.Stmt) {
	p.depth++
	for _, s := range list {
		p.stmt(s)
	}
	p.depth--
}

func (p *printer) stmt(s ast.Stmt) {
	switch s := s.(type) {
	case *ast.EmptyStmt:
	case *ast.BlockStmt:
		p.line(s.Pos(), "{")
		p.block(s)
	case *ast.IfStmt:
		p.ifStmt("", s.Pos(), s)
	case *ast.ForStmt:
		p.line(s.Pos(), "for "+forHeader(s)+"{")
		p.block(s.Body)
	case *ast.RangeStmt:
		p.line(s.Pos(), "for "+rangeHeader(s)+"range "+header(s.X)+" {")
		p.block(s.Body)
	case *ast.SelectStmt:
		p.line(s.Pos(), "select {")
		for _, c := range s.Body.List {
			p.clause(c.(*ast.CommClause))
		}
		p.line(s.Body.Rbrace, "}")
	default:
		p.line(s.Pos(), simple(s))
	}
}

// ifStmt writes an if that may follow an else.
func (p *printer) ifStmt(before string, pos token.Pos, s *ast.IfStmt) {
	init := ""
	if s.Init != nil {
		init = simple(s.Init) + "; "
	}
	p.line(pos, before+"if "+init+header(s.Cond)+" {")
	switch e := s.Else.(type) {
	case nil:
		p.block(s.Body)
	case *ast.IfStmt:
		p.list(s.Body.List)
		p.ifStmt("} else ", e.Pos(), e)
	case *ast.BlockStmt:
		p.list(s.Body.List)
		p.line(e.Lbrace, "} else {")
		p.block(e)
	}
}

func forHeader(s *ast.ForStmt) string {
	if s.Init == nil && s.Post == nil {
		if s.Cond == nil {
			return ""
		}
		return header(s.Cond) + " "
	}
	text := ""
	if s.Init != nil {
		text += simple(s.Init)
	}
	text += "; "
	if s.Cond != nil {
		text += header(s.Cond)
	}
	text += "; "
	if s.Post != nil {
		text += simple(s.Post) + " "
	}
	return text
}

func rangeHeader(s *ast.RangeStmt) string {
	if s.Key == nil {
		return ""
	}
	text := expr(s.Key)
	if s.Value != nil {
		text += ", " + expr(s.Value)
	}
	return text + " " + s.Tok.String() + " "
}

func (p *printer) clause(c *ast.CommClause) {
	if c.Comm == nil {
		p.line(c.Pos(), "default:")
	} else {
		p.line(c.Pos(), "case "+simple(c.Comm)+":")
	}
	p.list(c.Body)
}

// simple is a statement that takes one line.
func simple(s ast.Stmt) string {
	switch s := s.(type) {
	case *ast.ExprStmt:
		return expr(s.X)
	case *ast.SendStmt:
		return expr(s.Chan) + " <- " + expr(s.Value)
	case *ast.IncDecStmt:
		return expr(s.X) + s.Tok.String()
	case *ast.AssignStmt:
		return list(s.Lhs) + " " + s.Tok.String() + " " + list(s.Rhs)
	case *ast.GoStmt:
		return "go " + expr(s.Call)
	case *ast.DeferStmt:
		return "defer " + expr(s.Call)
	case *ast.ReturnStmt:
		if len(s.Results) == 0 {
			return "return"
		}
		return "return " + list(s.Results)
	case *ast.BranchStmt:
		return s.Tok.String()
	case *ast.DeclStmt:
		return variable(s.Decl.(*ast.GenDecl).Specs[0].(*ast.ValueSpec))
	}
	return "/* no statement of the subset */"
}
