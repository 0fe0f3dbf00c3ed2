// Command leakfuzz makes concurrent programs at random, and compares the goroutines that golf reports with those that Go's
// profile goroutineleak finds.
//
//	go run ./tables/leakfuzz [-n N] [-seed S] [-jobs N]
//	go run ./tables/leakfuzz -print [-seed S]
//
// Each goroutine that golf reports must be one that the profile finds in some run by Go, and each that it finds in 20 runs
// must be reported under some schedule, or found by golf-explore search. GOLF and GOLF_EXPLORE name the programs. The profile
// is that of Go 1.27, or of Go 1.26 with an experiment. The status is 1 if something is wrong.
package main

import (
	"flag"
	"fmt"
	"os"
	"sync"

	"golflower/load"
)

var (
	count = flag.Int("n", 100, "how many programs")
	seed  = flag.Int64("seed", 1, "the first seed")
	jobs  = flag.Int("jobs", 2, "programs at the same time")
	print = flag.Bool("print", false, "write the program of the first seed")
)

// batch is how many programs are built as one.
const batch = 100

func main() {
	flag.Parse()
	if *print {
		fmt.Print(source(*seed, "", "func step() {}"))
		return
	}
	var s summary
	for from := 0; from < *count; from += batch {
		n := min(batch, *count-from)
		outcomes, err := compareAll(*seed+int64(from), n, *jobs)
		if err != nil {
			fmt.Fprintln(os.Stderr, err)
			os.Exit(6)
		}
		for _, o := range outcomes {
			s.add(o)
			if w := o.wrong(); w != "" {
				fmt.Printf("seed %d: %s\n", o.seed, w)
			}
		}
	}
	fmt.Printf("seeds %d to %d: %s\n", *seed, *seed+int64(*count)-1, s)
	if s.wrong > 0 {
		os.Exit(1)
	}
}

// summary counts outcomes.
type summary struct{ programs, leaking, leaks, alike, more, wrong int }

func (s *summary) add(o *outcome) {
	s.programs++
	if len(o.byGo) > 0 {
		s.leaking++
	}
	s.leaks += len(o.byGo)
	s.alike += len(o.byGo) - len(o.missed)
	s.more += len(without(o.byGolf, o.byGo))
	if o.wrong() != "" {
		s.wrong++
	}
}

func (s summary) String() string {
	return fmt.Sprintf("%d programs, of which %d leak; of %d leaks that Go finds in %d runs golf finds %d, and %d that Go finds in more runs; %d programs with a difference",
		s.programs, s.leaking, s.leaks, plainRuns, s.alike, s.more, s.wrong)
}

// compareAll compares the programs of some seeds, some at the same time.
func compareAll(first int64, n, jobs int) ([]*outcome, error) {
	dir, err := os.MkdirTemp("", "leakfuzz")
	if err != nil {
		return nil, err
	}
	defer os.RemoveAll(dir)
	var seeds []int64
	for i := range n {
		seeds = append(seeds, first+int64(i))
	}
	file, err := build(dir, seeds)
	if err != nil {
		return nil, err
	}
	outcomes := make([]*outcome, n)
	var wg sync.WaitGroup
	slots := make(chan struct{}, jobs)
	for i, s := range seeds {
		slots <- struct{}{}
		wg.Add(1)
		go func() {
			defer wg.Done()
			outcomes[i] = compare(file, s)
			<-slots
		}()
	}
	wg.Wait()
	return outcomes, nil
}

// experiment is what the environment of go build needs so that there is a profile of leaks.
func experiment() []string {
	if load.Since("go1.27") {
		return nil
	}
	return []string{"GOEXPERIMENT=goroutineleakprofile"}
}
