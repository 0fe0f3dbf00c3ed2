package origin

import (
	"fmt"
	"go/ast"
	"go/importer"
	"go/parser"
	"go/token"
	"go/types"
	"slices"
	"strings"
	"testing"
)

// Each line with a comment `waits: THING at LINES` can wait on the thing, which was made at these lines.
const program = `package main

import "sync"

type pool struct {
	jobs chan int
	mu   sync.Mutex
	subs []chan string
	wg   *sync.WaitGroup
}

func newPool(n int) *pool {
	p := &pool{jobs: make(chan int, n), wg: &sync.WaitGroup{}}
	p.subs = append(p.subs, make(chan string))
	return p
}

func (p *pool) run() {
	for j := range p.jobs { // waits: p.jobs at 13
		_ = j
	}
	p.mu.Lock() // waits: p.mu at 13
	p.subs[0] <- "a" // waits: p.subs[0] at 14
	for _, s := range p.subs {
		s <- "b" // waits: s at 14
	}
	p.wg.Wait() // waits: p.wg at 13
}

func send(c chan<- int) {
	c <- 1 // waits: c at 35 37
}

func main() {
	a := make(chan int)
	go send(a)
	go send(make(chan int))
	var mu sync.Mutex
	f := func(d chan bool) {
		mu.Lock() // waits: mu at 38
		<-d // waits: d at 43
	}
	f(make(chan bool))
	go newPool(3).run()
	select { // waits: a at 35, e at 60
	case <-a: // waits: a at 35
	case x := <-e: // waits: e at 60
		_ = x
	}
	var many = make(chan chan int, 1)
	many <- make(chan int) // waits: many at 50
	v := <-<-many // waits: <-many at 51, many at 50
	_ = v
	c := sync.NewCond(&mu)
	c.Wait() // waits: c at 54
	if <-a > 1 { // waits: a at 35
	}
}

var e = func() chan int { return make(chan int) }()
`

// wanted are the comments, by line.
func wanted() map[int]string {
	all := map[int]string{}
	for i, l := range strings.Split(program, "\n") {
		if _, text, ok := strings.Cut(l, "// waits: "); ok {
			all[i+1] = text
		}
	}
	return all
}

func TestWhereThingsWereMade(t *testing.T) {
	fset := token.NewFileSet()
	file, err := parser.ParseFile(fset, "p.go", program, 0)
	if err != nil {
		t.Fatal(err)
	}
	info := &types.Info{Types: map[ast.Expr]types.TypeAndValue{}, Defs: map[*ast.Ident]types.Object{},
		Uses: map[*ast.Ident]types.Object{}, Selections: map[*ast.SelectorExpr]*types.Selection{}}
	conf := types.Config{Importer: importer.Default()}
	if _, err := conf.Check("main", fset, []*ast.File{file}, info); err != nil {
		t.Fatal(err)
	}
	f := New(info, []*ast.File{file})
	got := map[int]string{}
	for pos := range f.waits {
		var things []string
		for _, thing := range f.At(pos) {
			text := thing.Text + " at"
			for _, m := range thing.Made {
				text += fmt.Sprint(" ", fset.Position(m).Line)
			}
			things = append(things, text)
		}
		slices.Sort(things)
		got[fset.Position(pos).Line] = strings.Join(things, ", ")
	}
	want := wanted()
	for line := range strings.Count(program, "\n") + 1 {
		if got[line] != want[line] {
			t.Errorf("line %d: %q, want %q", line, got[line], want[line])
		}
	}
}
