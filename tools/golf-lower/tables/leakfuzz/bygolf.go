package main

import (
	"bytes"
	"fmt"
	"os"
	"os/exec"
	"strconv"
	"strings"

	"golflower/load"
	"golflower/lower"
)

// way is a way to lower a program and to run it.
type way struct {
	words   string
	options lower.Options
	program string // the variable that names the program
	args    []string
}

// rareSeeds are the further seeds with holds, for leaks that few schedules show.
const rareSeeds = 200

// ways are tried one after the other: the cheap ones for each program, the others for leaks that these have not shown.
func ways() (cheap, more []way) {
	collect := lower.Options{Collect: true}
	run := func(words string, o lower.Options, schedule string) way {
		return way{words + " --schedule " + schedule, o, "GOLF",
			[]string{"run", "--turns", "10000000", "--every", "10000", "--schedule", schedule}}
	}
	cheap = append(cheap, run("", collect, "rotate"))
	for seed := range 5 {
		cheap = append(cheap, run("", collect, fmt.Sprintf("seed:%d", seed+1)))
	}
	for seed := range 20 {
		s := fmt.Sprintf("seed:%d", seed+1)
		more = append(more,
			run("--late", lower.Options{Collect: true, Late: true}, s),
			run("--pause", lower.Options{Collect: true, Pause: true}, s),
			run("--late --pause", lower.Options{Collect: true, Late: true, Pause: true}, s),
			run("--hold", lower.Options{Collect: true, Hold: true}, s),
			run("--clock loose", lower.Options{Collect: true, Loose: true}, s),
			run("--clock loose --pause", lower.Options{Collect: true, Loose: true, Pause: true}, s))
	}
	for seed := range rareSeeds {
		s := fmt.Sprintf("seed:%d", seed+21)
		more = append(more,
			run("--hold", lower.Options{Collect: true, Hold: true}, s),
			run("--clock loose --hold", lower.Options{Collect: true, Loose: true, Hold: true}, s))
	}
	search := []string{"search", "--states", "20000", "--preemptions", "2", "--seconds", "10"}
	return cheap, append(more, way{"search", lower.Options{Collect: true, Loose: true}, "GOLF_EXPLORE", search})
}

// lowered has the lowered forms of a program, by their options.
type lowered struct {
	text  string
	forms map[lower.Options]*lower.Output
}

func newLowered(seed int64) *lowered {
	return &lowered{source(seed, "", "func step() {}"), map[lower.Options]*lower.Output{}}
}

// run runs the program in one way, and adds the goroutines that golf reports.
func (l *lowered) run(w way, found leaks) error {
	low := l.forms[w.options]
	if low == nil {
		var err error
		if low, err = lower.Lower(load.Single([]load.Source{{Name: "p.go", Text: []byte(l.text)}}), w.options); err != nil {
			return fmt.Errorf("refused: %w", err)
		}
		l.forms[w.options] = low
	}
	cmd := exec.Command(os.Getenv(w.program), w.args...)
	cmd.Stdin = strings.NewReader(low.Text)
	var out, errs bytes.Buffer
	cmd.Stdout, cmd.Stderr = &out, &errs
	if err := cmd.Run(); err != nil && cmd.ProcessState == nil {
		return err
	}
	for _, line := range strings.Split(errs.String(), "\n") {
		if one, ok := reported(low, line); ok {
			found[one]++
		}
	}
	if end := ending(errs.String()); end != "" {
		return fmt.Errorf("%s: %s", w.words, end)
	}
	return nil
}

// ending is how a run ended that neither returned nor was stopped, "" for others.
func ending(errs string) string {
	for _, line := range strings.Split(errs, "\n") {
		for _, begin := range []string{"panic: ", "fatal error: ", "refused: ", "read fault", "out of memory"} {
			if strings.HasPrefix(line, begin) {
				return line
			}
		}
	}
	return ""
}

// reported reads the line of a goroutine that is reported, with the lines of the program.
func reported(low *lower.Output, line string) (leak, bool) {
	if !strings.HasPrefix(line, "goroutine ") {
		return leak{}, false
	}
	_, rest, _ := strings.Cut(line, " at line ")
	wait, start, _ := strings.Cut(rest, ", started at line ")
	return leak{original(low, wait), original(low, start)}, true
}

// original is the line of the program from which a line of the lowered file comes, 0 if it is generated.
func original(low *lower.Output, number string) int {
	n, err := strconv.Atoi(number)
	if err != nil || n < 1 || n > len(low.Lines) {
		return 0
	}
	return low.Lines[n-1].Line
}
