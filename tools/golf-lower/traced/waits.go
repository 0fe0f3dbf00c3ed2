// Package traced finds out more of a run than golf tells, by golf-explore trace: who waits where if all goroutines are
// asleep, and at which line of the user's a panic has begun that generated code raises.
//
// Who waits is told by `golf-explore trace`. A collection tells how a goroutine waits, and none comes after the last turn.
// So the run is repeated with one goroutine more, which never takes a turn: then the last turn is none that ends the run.
//
// A lock does not know its holder. So the run is repeated with notes of what is locked, which says which operations are on one
// lock. The holder is the goroutine that has got the lock last.
package traced

import (
	"slices"
	"strconv"
	"strings"
)

// Wait is a blocked goroutine.
type Wait struct {
	Goroutine int
	Kind      string // how it waits, as golf tells it; "blocked" if that is not known
	Line      int    // of the lowered file
	Started   int    // the line that started it, 0 for goroutine 1
	Holder    int    // the goroutine that holds the lock that is waited for, 0 if it is not known, or if it is no lock
	Locked    int    // the line where the holder has locked it
}

// finder finds out what there is to tell of a run.
type finder struct {
	run    Tracer
	text   string
	lines  []string // of the text
	words  []string // schedule and turns
	first  *trace
	replay replay
	waits  []*Wait
}

// MostTurns is the longest run that is told of.
const MostTurns = 500000

// Waits runs the lowered text by the words of a run, and returns the goroutines that are blocked at its end, by rising
// number. There are none if the run does not end so, or if it is too long.
func Waits(run Tracer, text string, words []string) ([]*Wait, error) {
	schedule, bare := scheduleOf(words, MostTurns)
	f := &finder{run: run, text: text, lines: strings.Split(text, "\n"), words: bare}
	var err error
	if f.first, err = read(run, text, bare); err != nil || !f.first.asleep {
		return nil, err
	}
	for g, b := range f.first.last {
		f.waits = append(f.waits, &Wait{Goroutine: g, Kind: "blocked", Line: b.line, Started: f.first.starts[g]})
	}
	slices.SortFunc(f.waits, func(a, b *Wait) int { return a.Goroutine - b.Goroutine })
	numbers, known := numbers(schedule, f.first.count)
	f.replay = replay{first: f.first, numbers: numbers, selects: func(line int) bool { return f.has(line, "select") }}
	if !known || !f.first.whole() || !f.kinds() {
		f.kindsBefore()
		return f.waits, nil
	}
	f.holders()
	return f.waits, nil
}

// has: a line of the lowered text has this part.
func (f *finder) has(line int, part string) bool {
	return line >= 1 && line <= len(f.lines) && strings.Contains(f.lines[line-1], part)
}

// kindsBefore tells how each goroutine waits after the last turn but one.
func (f *finder) kindsBefore() {
	n := strconv.Itoa(f.first.count - 1)
	words := append(slices.Clone(f.words), "--every", n, "--why")
	if got, err := read(f.run, f.text, withTurns(words, n)); err == nil {
		f.told(got.kinds, func(g int) int { return g })
	}
}

// withTurns are words with another number of turns.
func withTurns(words []string, n string) []string {
	if i := slices.Index(words, "--turns"); i >= 0 {
		words[i+1] = n
		return words
	}
	return append(words, "--turns", n)
}

// told takes how the goroutines wait.
func (f *finder) told(kinds map[int]string, as func(g int) int) {
	for _, w := range f.waits {
		if kind := kinds[as(w.Goroutine)]; kind != "" {
			w.Kind = kind
		}
	}
}

// The goroutine that is added to the text. Its lines keep their numbers.
const (
	begin = "\nfunc main() {\n"
	awake = "golf_awake"
)

// kinds tells how each goroutine waits after the last turn, by a run with one goroutine more.
func (f *finder) kinds() bool {
	if strings.Count(f.text, begin) != 1 || strings.Contains(f.text, awake) {
		return false
	}
	text := strings.Replace(f.text, begin, "\nfunc main() { go "+awake+"();\n", 1) + "\nfunc " + awake + "() {\n}\n"
	word, wanted := f.replay.word(nil)
	word = "0," + word
	if len(word) > mostBytes {
		return false
	}
	got, err := read(f.run, text, []string{"--schedule", "choices:" + word, "--every", strconv.Itoa(len(wanted) + 1), "--why"})
	if err != nil || !agrees(f.withoutNotes(got.turns, nil), wanted) {
		return false
	}
	f.told(got.kinds, one)
	return true
}
