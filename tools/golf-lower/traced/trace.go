package traced

import (
	"regexp"
	"slices"
	"strconv"
	"strings"
)

// Tracer runs `golf-explore trace` with these words on a lowered text. It gives each line of its output, and each line of its
// standard error. The status of the program does not matter.
type Tracer func(text string, words []string, out, told func(line string)) error

// mostKept is how many turns of a run are kept: `choices:` takes no more of them.
const mostKept = 100000

// turn is one turn of a run: its goroutine, the line of its instruction, and what it did to goroutines.
type turn struct {
	goroutine, line int
	starts          int // the goroutine that it starts, 0 if it starts none
	blocks, ends    bool
	wakes           []int
}

var (
	turnRE  = regexp.MustCompile(`^turn \d+: goroutine (\d+) at line (\d+)(?:, (?:starts goroutine (\d+)|(blocks)|(ends)))?(?:, wakes (.+))?$`)
	entryRE = regexp.MustCompile(`^goroutine (\d+): (.+) at line (\d+), (?:reached by .+|started at line \d+)$`)
	allRE   = regexp.MustCompile(`\d+`)
)

// turnOf reads the line of a turn.
func turnOf(line string) (turn, bool) {
	m := turnRE.FindStringSubmatch(line)
	if m == nil {
		return turn{}, false
	}
	t := turn{goroutine: number(m[1]), line: number(m[2]), starts: number(m[3]), blocks: m[4] != "", ends: m[5] != ""}
	for _, n := range allRE.FindAllString(m[6], -1) {
		t.wakes = append(t.wakes, number(n))
	}
	return t, true
}

// number is the number that a text is, 0 if it is empty.
func number(s string) int {
	n, _ := strconv.Atoi(s)
	return n
}

// same: the two turns did the same.
func (t turn) same(o turn) bool {
	return t.goroutine == o.goroutine && t.line == o.line && t.starts == o.starts && t.blocks == o.blocks &&
		t.ends == o.ends && slices.Equal(t.wakes, o.wakes)
}

// trace is what a run did: its turns, the last wait of each goroutine, and how each waits by the last collection.
type trace struct {
	turns  []turn // the first of them, at most mostKept
	count  int    // how many there were
	starts map[int]int
	last   map[int]*block
	kinds  map[int]string
	asleep bool // the run ended with all goroutines asleep
}

// block is a turn that has blocked its goroutine for good.
type block struct{ at, line int }

func newTrace() *trace {
	return &trace{starts: map[int]int{}, last: map[int]*block{}, kinds: map[int]string{}}
}

// read takes a run, without its output.
func read(run Tracer, text string, words []string) (*trace, error) {
	t := newTrace()
	err := run(text, words, func(string) {}, t.take)
	return t, err
}

// take takes a line of standard error.
func (t *trace) take(line string) {
	switch {
	case strings.HasPrefix(line, "turn "):
		if t.count >= mostKept && !strings.Contains(line, ",") {
			t.count++ // nobody blocks, starts or wakes
		} else if one, ok := turnOf(line); ok {
			t.add(one)
		}
	case strings.HasPrefix(line, "collection "):
		clear(t.kinds)
	case strings.HasPrefix(line, "fatal error: all goroutines are asleep"):
		t.asleep = true
	default:
		if m := entryRE.FindStringSubmatch(line); m != nil {
			t.kinds[number(m[1])] = m[2]
		}
	}
}

// add takes a turn.
func (t *trace) add(one turn) {
	if t.count < mostKept {
		t.turns = append(t.turns, one)
	}
	if one.starts > 0 {
		t.starts[one.starts] = one.line
	}
	if one.blocks {
		t.last[one.goroutine] = &block{t.count, one.line}
	}
	for _, g := range one.wakes {
		delete(t.last, g)
	}
	t.count++
}

// whole: all turns are kept.
func (t *trace) whole() bool { return t.count == len(t.turns) }

// ready are the goroutines that can run, in rising order.
type ready []int

// after is what can run after a turn.
func (r ready) after(t turn) ready {
	next := slices.Clone(r)
	if t.blocks || t.ends {
		next = slices.DeleteFunc(next, func(g int) bool { return g == t.goroutine })
	}
	for _, g := range append([]int{t.starts}, t.wakes...) {
		if at, found := slices.BinarySearch(next, g); g > 0 && !found {
			next = slices.Insert(next, at, g)
		}
	}
	return next
}
