package judge

import (
	"flag"
	"fmt"
	"os"
	"regexp"
	"runtime"
	"slices"
	"strings"
	"sync"
)

// Choice is what the words of a table's program choose.
type Choice struct {
	root, only *string
	part, jobs *int
	list       *bool
	number     int
}

// Words declares the words of a program whose table has rows of one kind, such as files.
func Words(kind string) *Choice {
	return &Choice{
		root: flag.String("goroot", runtime.GOROOT(), "the root of Go's source"),
		only: flag.String("only", "", "the "+kind+" whose names match"),
		part: flag.Int("part", -1, "the "+kind+" whose number ends in this digit"),
		jobs: flag.Int("jobs", 2, kind+" at the same time"),
		list: flag.Bool("list", false, "a line for each of the "+kind+", in place of the table"),
	}
}

// Root is the root of Go's source.
func (c *Choice) Root() string { return *c.root }

// Takes counts a name, and says whether it is chosen.
func (c *Choice) Takes(name string) bool {
	c.number++
	return regexp.MustCompile(*c.only).MatchString(name) && (*c.part < 0 || c.number%10 == *c.part)
}

// Judge judges each name, some at the same time. With -list it writes a line for each, and says so. It ends the program with
// a message if golf-go cannot be started.
func (c *Choice) Judge(names []string, examine func(i int) Verdict) (verdicts []Verdict, listed bool) {
	if err := Ready(); err != nil {
		fmt.Fprintln(os.Stderr, err)
		os.Exit(6)
	}
	verdicts = make([]Verdict, len(names))
	var writing sync.Mutex
	var wg sync.WaitGroup
	slots := make(chan struct{}, *c.jobs)
	for i, name := range names {
		slots <- struct{}{}
		wg.Add(1)
		go func() {
			defer wg.Done()
			verdicts[i] = examine(i)
			if *c.list {
				writing.Lock()
				fmt.Printf("%s\t%s\t%s\n", name, verdicts[i].Kind, verdicts[i].Text)
				writing.Unlock()
			}
			<-slots
		}()
	}
	wg.Wait()
	return verdicts, *c.list
}

// Reasons is the table of why rows of one kind are refused, the most frequent reason first.
func Reasons(kind string, verdicts []Verdict) string {
	count := map[string]int{}
	for _, v := range verdicts {
		if v.Kind == Refused {
			count[Reason(v.Text)]++
		}
	}
	var all []string
	for reason := range count {
		all = append(all, reason)
	}
	slices.SortFunc(all, func(a, b string) int {
		if count[a] != count[b] {
			return count[b] - count[a]
		}
		return strings.Compare(a, b)
	})
	var sb strings.Builder
	fmt.Fprintf(&sb, "\n| refused because of | %s |\n|---|---|\n", kind)
	for _, reason := range all {
		fmt.Fprintf(&sb, "| %s | %d |\n", Cell(reason), count[reason])
	}
	return sb.String()
}

// Cell is a text as a cell of a table.
func Cell(text string) string { return strings.ReplaceAll(text, "|", `\|`) }
