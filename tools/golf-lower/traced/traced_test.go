package traced

import (
	"fmt"
	"slices"
	"strings"
	"testing"
)

// The numbers are those of docs/LANGUAGE.md.
func TestNumbersOfASchedule(t *testing.T) {
	for schedule, want := range map[string][]uint64{
		"rotate":        {0, 1, 2},
		"seed:0":        {1442695040888963407 >> 33},
		"choices:5,0,7": {5, 0, 7},
	} {
		if got, ok := numbers(schedule, len(want)); !ok || !slices.Equal(got, want) {
			t.Errorf("%s: %v, want %v", schedule, got, want)
		}
	}
	if _, ok := numbers("choices:1,2", 3); ok {
		t.Error("two choices are no three numbers")
	}
}

func TestScheduleOfWords(t *testing.T) {
	for line, want := range map[string]string{
		"":                                   "rotate [--turns 500000]",
		"--turns 5 --every 3 --why":          "rotate [--turns 5]",
		"--schedule=seed:7 --recover":        "seed:7 [--schedule seed:7 --turns 500000]",
		"--markers 2 --schedule choices:0,1": "choices:0,1 [--schedule choices:0,1 --turns 500000]",
	} {
		schedule, bare := scheduleOf(strings.Fields(line), MostTurns)
		if got := fmt.Sprint(schedule, " ", bare); got != want {
			t.Errorf("%s: %s, want %s", line, got, want)
		}
	}
}

// A lock has the holder that got it last. Of several readers since the last writer it is not known who still reads.
func TestHolderOfALock(t *testing.T) {
	op := func(g, got int, reads bool) *lock { return &lock{goroutine: g, got: got, reads: reads} }
	f := &finder{first: newTrace()}
	for name, c := range map[string]struct {
		locks []*lock
		want  int
	}{
		"nobody":                 {[]*lock{op(1, -1, false)}, -1},
		"the last one":           {[]*lock{op(1, 3, false), op(2, 9, false), op(1, -1, false)}, 1},
		"it was handed over":     {[]*lock{op(1, 9, false), op(2, 3, false)}, 0},
		"one reader":             {[]*lock{op(1, 3, false), op(2, 5, true), op(2, 7, true)}, 2},
		"two readers":            {[]*lock{op(1, 3, false), op(2, 5, true), op(3, 7, true)}, -1},
		"a writer after readers": {[]*lock{op(2, 5, true), op(3, 7, true), op(1, 9, false)}, 2},
	} {
		same := []int{}
		for i := range c.locks {
			same = append(same, i)
		}
		if got := f.holder(c.locks, same); got != c.want {
			t.Errorf("%s: %d, want %d", name, got, c.want)
		}
	}
}

func TestTurnsAreRead(t *testing.T) {
	for line, want := range map[string]turn{
		"turn 1: goroutine 1 at line 11":                                  {goroutine: 1, line: 11},
		"turn 7: goroutine 1 at line 9, starts goroutine 2":               {goroutine: 1, line: 9, starts: 2},
		"turn 10: goroutine 2 at line 5, blocks":                          {goroutine: 2, line: 5, blocks: true},
		"turn 11: goroutine 3 at line 6, ends":                            {goroutine: 3, line: 6, ends: true},
		"turn 23: goroutine 1 at line 33, wakes goroutine 2, goroutine 3": {goroutine: 1, line: 33, wakes: []int{2, 3}},
		"turn 24: goroutine 4 at line 8, blocks, wakes goroutine 12":      {goroutine: 4, line: 8, blocks: true, wakes: []int{12}},
	} {
		if got, ok := turnOf(line); !ok || !got.same(want) {
			t.Errorf("%s: %v", line, got)
		}
	}
	if _, ok := turnOf("goroutine 1: chan receive at line 5"); ok {
		t.Error("a line of a collection is no turn")
	}
	for _, line := range []string{"turn 1: goroutine 1 at line 11", "turn 7: goroutine 1 at line 11, starts goroutine 2"} {
		if g, at, ok := takenBy(line); g != 1 || at != 11 || !ok {
			t.Errorf("%s: taken by %d at %d", line, g, at)
		}
	}
	if _, _, ok := takenBy("collection 1: marked 0"); ok {
		t.Error("a collection is no turn")
	}
}
