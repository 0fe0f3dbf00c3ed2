package lower

import (
	"fmt"
	"go/ast"
	"go/token"
	"slices"
	"strings"

	"golflower/load"
	"golflower/origin"
	"golflower/tree"
)

// buffer collects lines.
type buffer struct{ lines []tree.Line }

func (b *buffer) add(orig token.Pos, format string, args ...any) {
	text := format
	if len(args) > 0 {
		text = fmt.Sprintf(format, args...)
	}
	b.lines = append(b.lines, tree.Line{Text: text, Pos: orig})
}

// chunk is a function or a type of the output.
type chunk struct {
	pos token.Pos
	buf *buffer
}

// chunk adds a function or a type, whose place is that of its first line.
func (p *prog) chunk(b *buffer) {
	p.chunks = append(p.chunks, chunk{b.lines[0].Pos, b})
}

// ordered are the parts of the output: what the user's files declare in their order, with the functions that their
// literals become, then what is generated, then what comes from _std.
func (p *prog) ordered() []*buffer {
	var own, rest []chunk
	for _, c := range p.chunks {
		if c.pos.IsValid() {
			own = append(own, c)
		} else {
			rest = append(rest, c)
		}
	}
	slices.SortStableFunc(own, func(a, b chunk) int { return int(a.pos) - int(b.pos) })
	var r []*buffer
	for _, c := range own {
		r = append(r, c.buf)
	}
	r = append(r, &p.decls)
	for _, c := range rest {
		r = append(r, c.buf)
	}
	return r
}

// Place is a place in the user's files: no line stands for generated code.
type Place struct {
	File   string
	Line   int
	Column int    // of its statement
	Func   string // the function around it, by the name that Go's stacks have
}

// Output is the lowered file and its map.
type Output struct {
	Text  string
	Lines []Place // Lines[k-1] is the place of line k
	Files int     // how many files were lowered

	Things map[int][]Thing // on what line k can wait
	clock  map[string]bool // the functions of the clock

	library map[string]string // those of the standard library, with their names there

	Clock    bool    // the program has a clock
	Recovers bool    // the program recovers panics: one that golf itself raises is no answer
	Sites    []Place // Sites[k-1] is the place of the panic with number k

	Starts bool // a test starts goroutines, or has parts in parallel

	Plain *Output // the same without holds, if there are some
}

// Thing is something on which a statement can wait.
type Thing struct {
	Kind string  // how a goroutine waits on it, as golf tells it
	Text string  // how the statement names it, "" if it is long
	Made []Place // where it may have been made
}

// Generated is how a function of the lowered file is called that is none of the user's: the clock, the name that it has in
// the standard library, or "" for others.
func (out *Output) Generated(name string) string {
	for _, wrapper := range []string{"golf_run_", "golf_go_", "golf_defer_"} {
		name = strings.TrimPrefix(name, wrapper)
	}
	if out.clock[name] {
		return "the clock"
	}
	return out.library[name]
}

// FunctionAt is the name of the function of the lowered file around a line.
func (out *Output) FunctionAt(line int) string {
	text := strings.Split(out.Text, "\n")
	for i := min(line, len(text)) - 1; i >= 0; i-- {
		if name, ok := strings.CutPrefix(text[i], "func "); ok {
			name, _, _ = strings.Cut(name, "(")
			return name
		}
	}
	return "generated code"
}

// Map has a line for each line of the output: FILE:LINE:COLUMN, a tab and the function. The file has the name that name gives
// it. A generated line is 0, and a tab and what its function is called, if Generated has a name.
func (out *Output) Map(name func(string) string) string {
	var sb strings.Builder
	generated := ""
	texts := strings.Split(out.Text, "\n")
	for i, p := range out.Lines {
		if rest, ok := strings.CutPrefix(texts[i], "func "); ok {
			function, _, _ := strings.Cut(rest, "(")
			generated = out.Generated(function)
		}
		switch {
		case p.Line > 0:
			fmt.Fprintf(&sb, "%s:%d:%d\t%s\n", name(p.File), p.Line, p.Column, p.Func)
		case generated != "":
			fmt.Fprintf(&sb, "0\t%s\n", generated)
		default:
			sb.WriteString("0\n")
		}
	}
	return sb.String()
}

// finish makes the output of the lines, and of a program with holds also that of the lines without them: one lowering serves
// both.
func (p *prog) finish(parts ...*buffer) (*Output, error) {
	var lines []tree.Line
	for _, b := range parts {
		lines = append(lines, b.lines...)
	}
	if !p.opt.Hold {
		return p.output(lines, false)
	}
	plain, err := p.output(p.withoutStalls(lines), false)
	if err != nil {
		return nil, err
	}
	out, err := p.output(lines, true)
	if err == nil {
		out.Plain = plain
	}
	return out, err
}

// output makes the tree of the lines, changes it, and prints it.
func (p *prog) output(lines []tree.Line, holds bool) (*Output, error) {
	file, err := tree.Parse(lines)
	if err != nil {
		return nil, &load.Error{Msg: fmt.Sprintf("the lowering fails: what it writes is no Go: %v", err)}
	}
	starts := p.opt.Tests && (p.parallel && p.parts || file.Starts(p.stdFunc("testing", "runner")))
	p.passes(file, holds)
	out := &Output{
		Files: p.userFiles(), Recovers: p.unwind, Clock: p.clock || p.timed, Starts: starts,
		clock: p.clockwork, library: p.library,
	}
	places := p.newPlaces()
	printed := file.Print()
	var sb strings.Builder
	for _, l := range printed {
		sb.WriteString(l.Text)
		sb.WriteByte('\n')
		out.Lines = append(out.Lines, places.of(l.Pos))
	}
	out.Text = sb.String()
	out.Things = p.things(printed, places)
	for _, pos := range p.sites {
		out.Sites = append(out.Sites, places.of(pos))
	}
	return out, nil
}

// passes change the tree.
func (p *prog) passes(file *tree.File, holds bool) {
	file.DropUnused()
	file.DropUnreachable()
	if p.opt.Late {
		file.Late(p.stdFunc("time", "Late"), p.fresh)
	}
	if holds {
		file.Late(p.stall(), p.fresh)
	}
	if p.clock {
		file.Count(p.stdFunc("time", "clock"))
	}
	if p.unwind {
		file.Unwind(p.unwinding())
	} else {
		file.DropQuestions()
	}
	file.Chains(p.fresh)
	file.DropUncalled()
}

// things finds on what the lines can wait.
func (p *prog) things(lines []tree.Line, places *places) map[int][]Thing {
	var files []*ast.File
	for _, k := range p.List {
		if k.User {
			files = append(files, k.Files...)
		}
	}
	finder := origin.New(p.Info, files)
	all := map[int][]Thing{}
	for i, l := range lines {
		if !canBlock(l.Text) {
			continue
		}
		for _, t := range finder.At(l.Pos) {
			var made []Place
			for _, pos := range t.Made {
				made = append(made, places.of(pos))
			}
			all[i+1] = append(all[i+1], Thing{t.Kind, t.Text, made})
		}
	}
	return all
}

// canBlock: the line has something that may block, or calls a function of the lowering that does.
func canBlock(line string) bool {
	for _, part := range []string{"<-", "select ", "range ", "Lock()", "Wait()", "wait_"} {
		if strings.Contains(line, part) {
			return true
		}
	}
	return false
}

// userFiles is the number of the user's files.
func (p *prog) userFiles() int {
	n := 0
	for _, k := range p.List {
		if k.User {
			n += len(k.Files)
		}
	}
	return n
}

// unwinding is what the pass that unwinds must know.
func (p *prog) unwinding() tree.Unwinding {
	u := tree.Unwinding{Dispatchers: map[string]bool{}, Inner: p.inner}
	for _, fi := range p.fnList {
		u.Dispatchers[fi.name+"_call"] = true
	}
	for _, d := range p.dispList {
		u.Dispatchers[d.name] = true
	}
	return u
}
