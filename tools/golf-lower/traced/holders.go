package traced

import (
	"fmt"
	"go/ast"
	"go/importer"
	"go/parser"
	"go/token"
	"go/types"
	"regexp"
	"slices"
	"strings"
)

// A lock operation of the run: a visit of a goroutine to a line that locks, from its first turn there to the operation.
type lock struct {
	goroutine, line int
	first, last     int  // turns
	reads           bool // it is RLock
	got             int  // the turn at which the goroutine had the lock, -1 if it waits for it at the end
}

// noteTurns is how many turns a call of note takes beside those of its operand.
const noteTurns = 10

// notes are what is put behind the lowered text. note remembers which lock is taken next. The goroutine that is added says
// in the end which operations were on the lock of an operation.
const notes = `
var golf_notes int
var golf_mutex []*sync.Mutex = make([]*sync.Mutex, %[1]d)
var golf_rw []*sync.RWMutex = make([]*sync.RWMutex, %[1]d)

func golf_note(x *sync.Mutex) {
	golf_mutex[golf_notes] = x
	golf_notes = golf_notes + 1
}

func golf_note_rw(x *sync.RWMutex) {
	golf_rw[golf_notes] = x
	golf_notes = golf_notes + 1
}

func golf_same(w int) {
	for i := 0; i < golf_notes; i = i + 1 {
		if golf_mutex[i] == golf_mutex[w] && golf_rw[i] == golf_rw[w] {
			fmt.Println("‿same", w, i)
		}
	}
}

func golf_awake() {
%[2]s}
`

// setUp is how many turns the declarations of notes and the start of the goroutine take.
const setUp = 7

// mostNotes is the longest slice of the subset, and sameTurns is more than the turns of one round of golf_same.
const (
	mostNotes = 65536
	sameTurns = 40
)

// mark begins a line of golf_same.
const mark = "‿same "

var lockRE = regexp.MustCompile(`^(\t*)([A-Za-z_][\w.]*)\.(Lock|RLock)\(\)$`)

// holders finds who holds the locks that are waited for. The run is repeated with a note before each operation, which tells
// which operations are on one lock. The last one that got the lock is that of its holder.
func (f *finder) holders() {
	locks := f.locks()
	var waiting []int
	for i, l := range locks {
		if l.got < 0 {
			waiting = append(waiting, i)
		}
	}
	if len(waiting) == 0 || len(locks) > mostNotes {
		return
	}
	text, ok := f.noted(len(locks), waiting)
	if !ok {
		return
	}
	same := f.same(text, locks, waiting)
	for _, w := range waiting {
		h := f.holder(locks, same[w])
		i := slices.IndexFunc(f.waits, func(one *Wait) bool { return one.Goroutine == locks[w].goroutine })
		if h >= 0 && i >= 0 && f.waits[i].Line == locks[w].line {
			f.waits[i].Holder, f.waits[i].Locked = locks[h].goroutine, locks[h].line
		}
	}
}

// locks are the operations of the run that lock, in the order in which they begin.
func (f *finder) locks() []*lock {
	var all []*lock
	open := map[int]*lock{} // by goroutine
	for at, t := range f.first.turns {
		l := open[t.goroutine]
		if l != nil && (l.line != t.line || l.got < 0) {
			delete(open, t.goroutine)
			l = nil
		}
		if m := f.operation(t.line); m != nil && l == nil {
			l = &lock{goroutine: t.goroutine, line: t.line, first: at, reads: m[3] == "RLock"}
			open[t.goroutine] = l
			all = append(all, l)
		}
		if l != nil {
			l.last, l.got = at, at
			if t.blocks {
				l.got = -1
			}
		}
		for _, g := range t.wakes {
			if l := open[g]; l != nil {
				l.got = at
			}
		}
	}
	return all
}

// operation is the operation of a line that locks and does nothing else.
func (f *finder) operation(line int) []string {
	if line < 1 || line > len(f.lines) {
		return nil
	}
	return lockRE.FindStringSubmatch(f.lines[line-1])
}

// noted is the text with its notes. It is not ok if there are operations in another form.
func (f *finder) noted(count int, waiting []int) (string, bool) {
	kinds := f.mutexes()
	lines := slices.Clone(f.lines)
	for i, l := range lines {
		m := lockRE.FindStringSubmatch(l)
		switch {
		case m == nil && strings.Contains(strings.ReplaceAll(l, "Unlock()", ""), "Lock()"):
			return "", false
		case m == nil:
		case kinds[i+1] == "sync.Mutex":
			lines[i] = m[1] + "golf_note(" + m[2] + "); " + l
		case kinds[i+1] == "sync.RWMutex":
			lines[i] = m[1] + "golf_note_rw(" + m[2] + "); " + l
		default:
			return "", false
		}
	}
	text := strings.Join(lines, "\n")
	if !strings.Contains(text, `import "fmt"`) {
		text = strings.Replace(text, `import "sync"`, `import "fmt"; import "sync"`, 1)
	}
	var calls strings.Builder
	for _, w := range waiting {
		fmt.Fprintf(&calls, "\tgolf_same(%d)\n", w)
	}
	return strings.Replace(text, begin, "\nfunc main() { go "+awake+"();\n", 1) + fmt.Sprintf(notes, count, calls.String()), true
}

// stubs are what the lowered text uses of package sync.
const stubs = `package sync
type Mutex struct{}
func (*Mutex) Lock() {}
type RWMutex struct{}
func (*RWMutex) Lock() {}
func (*RWMutex) RLock() {}
type WaitGroup struct{}
type Cond struct{ L *Mutex }
func NewCond(l *Mutex) *Cond { return nil }
`

// importing gives the package sync of stubs, and no other one.
type importing func(path string) (*types.Package, error)

func (i importing) Import(path string) (*types.Package, error) { return i(path) }

// mutexes are the types of what is locked, by line.
func (f *finder) mutexes() map[int]string {
	kinds := map[int]string{}
	fset := token.NewFileSet()
	config := types.Config{Error: func(error) {}}
	config.Importer = importing(func(path string) (*types.Package, error) {
		if path != "sync" {
			return importer.Default().Import(path)
		}
		file, err := parser.ParseFile(fset, "sync.go", stubs, 0)
		if err != nil {
			return nil, err
		}
		return (&types.Config{}).Check("sync", fset, []*ast.File{file}, nil)
	})
	file, err := parser.ParseFile(fset, "lowered.go", f.text, parser.SkipObjectResolution)
	if err != nil {
		return kinds
	}
	info := &types.Info{Types: map[ast.Expr]types.TypeAndValue{}}
	config.Check("main", fset, []*ast.File{file}, info) // what is wrong beside locks does not matter
	ast.Inspect(file, func(n ast.Node) bool {
		if s, ok := n.(*ast.SelectorExpr); ok && (s.Sel.Name == "Lock" || s.Sel.Name == "RLock") {
			if t := info.Types[s.X].Type; t != nil {
				kinds[fset.Position(s.Sel.Pos()).Line] = strings.TrimPrefix(t.String(), "*")
			}
		}
		return true
	})
	return kinds
}

// same are the operations on the lock of each of these, by the run with notes.
func (f *finder) same(text string, locks []*lock, of []int) map[int][]int {
	added := map[int]int{}
	for _, l := range locks {
		operands := 0
		for _, t := range f.first.turns[l.first:l.last] {
			if t.goroutine == l.goroutine {
				operands++
			}
		}
		added[l.first] = noteTurns + operands
	}
	word, wanted := f.replay.word(added)
	word = strings.Repeat("0,", setUp) + word + strings.Repeat(",0", sameTurns*len(of)*(len(locks)+1))
	if len(word) > mostBytes || strings.Count(word, ",") >= mostKept {
		return nil
	}
	found := map[int][]int{}
	got := newTrace()
	err := f.run(text, []string{"--schedule", "choices:" + word}, func(l string) {
		if rest, ok := strings.CutPrefix(l, mark); ok {
			w, i, _ := strings.Cut(rest, " ")
			found[number(w)] = append(found[number(w)], number(i))
		}
	}, got.take)
	if err != nil || !agrees(f.withoutNotes(got.turns, added), wanted) {
		return nil
	}
	return found
}

// withoutNotes are the turns of a run without those that notes have added before a turn.
func (f *finder) withoutNotes(turns []turn, added map[int]int) []turn {
	start := slices.IndexFunc(turns, func(t turn) bool { return t.starts == 2 })
	if start < 0 {
		return nil
	}
	all := slices.DeleteFunc(slices.Clone(turns[:start]), func(t turn) bool { return t.line > len(f.lines) })
	all = append(all, turns[start+1:]...)
	var left []turn
	for at := range f.first.turns {
		if len(all) <= added[at] {
			return nil
		}
		left = append(left, all[added[at]])
		all = all[added[at]+1:]
	}
	return left
}

// holder is the operation of the holder of a lock, if these are all operations on it; -1 if it is not known.
func (f *finder) holder(locks []*lock, same []int) int {
	last, readers := -1, map[int]bool{}
	slices.SortFunc(same, func(a, b int) int { return locks[a].got - locks[b].got })
	for _, i := range same {
		switch {
		case locks[i].got < 0:
			continue
		case locks[i].reads:
			readers[locks[i].goroutine] = true
		default:
			clear(readers)
		}
		last = i
	}
	if last < 0 || len(readers) > 1 || f.wokenAfter(locks[last].got) {
		return -1
	}
	return last
}

// wokenAfter: a goroutine may have got a lock back after a turn, since it has waited for a condition.
func (f *finder) wokenAfter(at int) bool {
	if !strings.Contains(f.text, "sync.NewCond(") {
		return false
	}
	waits := map[int]bool{}
	for i, t := range f.first.turns {
		if t.blocks {
			waits[t.goroutine] = f.has(t.line, ".Wait()")
		}
		if i > at && slices.ContainsFunc(t.wakes, func(g int) bool { return waits[g] }) {
			return true
		}
	}
	return false
}
