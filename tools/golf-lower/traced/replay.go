package traced

import (
	"fmt"
	"slices"
	"strconv"
	"strings"
)

// mostBytes is the longest word that Linux takes, with some room.
const mostBytes = 131000

// numbers gives the number of each turn by a schedule, as docs/LANGUAGE.md says: that of turn k counted from 0.
func numbers(schedule string, count int) ([]uint64, bool) {
	all := make([]uint64, 0, count)
	kind, value, _ := strings.Cut(schedule, ":")
	switch kind {
	case "rotate":
		for k := range count {
			all = append(all, uint64(k))
		}
	case "seed":
		x, err := strconv.ParseUint(value, 10, 64)
		if err != nil {
			return nil, false
		}
		for range count {
			x = x*6364136223846793005 + 1442695040888963407
			all = append(all, x>>33)
		}
	case "choices":
		for _, n := range strings.Split(value, ",") {
			x, err := strconv.ParseUint(n, 10, 64)
			if err != nil {
				return nil, false
			}
			all = append(all, x)
		}
	}
	return all, len(all) >= count
}

// scheduleOf is the schedule that the words of a run name, and the words without those that only add collections, with at
// most so many turns.
func scheduleOf(words []string, most int) (schedule string, bare []string) {
	schedule = "rotate"
	for i := 0; i < len(words); i++ {
		name, value, whole := strings.Cut(words[i], "=")
		switch name {
		case "--schedule", "--turns", "--every", "--markers":
			if !whole && i+1 < len(words) {
				i++
				value = words[i]
			}
			if name == "--schedule" {
				schedule = value
			}
			if name == "--schedule" || name == "--turns" {
				bare = append(bare, name, value)
			}
		}
	}
	if i := slices.Index(bare, "--turns"); i < 0 || number(bare[i+1]) > most {
		bare = withTurns(bare, strconv.Itoa(most))
	}
	return schedule, bare
}

// replay takes the turns of a first run again.
type replay struct {
	first   *trace
	numbers []uint64
	selects func(line int) bool // the line may have a select, whose case the number chooses too
}

// word is the schedule that takes these turns while one goroutine more can run, whose number is 2, and what these turns should
// be. Before turn k of the first run its goroutine takes added[k] more.
func (r *replay) word(added map[int]int) (word string, wanted []turn) {
	var sb strings.Builder
	then, now := ready{1}, ready{1, 2}
	for at, t := range r.first.turns {
		t = renamed(t)
		place := uint64(slices.Index(now, t.goroutine))
		for range added[at] {
			fmt.Fprintf(&sb, "%d,", place)
		}
		if r.selects(t.line) {
			place += r.numbers[at] / uint64(len(then)) * uint64(len(now))
		}
		fmt.Fprintf(&sb, "%d,", place)
		wanted = append(wanted, t)
		then, now = then.after(r.first.turns[at]), now.after(t)
	}
	return strings.TrimSuffix(sb.String(), ","), wanted
}

// renamed is a turn in the run with one goroutine more: those that start later have higher numbers.
func renamed(t turn) turn {
	t.goroutine, t.starts = one(t.goroutine), one(t.starts)
	t.wakes = slices.Clone(t.wakes)
	for i, g := range t.wakes {
		t.wakes[i] = one(g)
	}
	return t
}

// one is the number of a goroutine in the run with one more.
func one(g int) int {
	if g >= 2 {
		return g + 1
	}
	return g
}

// agrees: the run took the turns that were wanted.
func agrees(got, wanted []turn) bool {
	return len(got) >= len(wanted) && slices.EqualFunc(got[:len(wanted)], wanted, turn.same)
}
