package main

import (
	"bytes"
	"context"
	"errors"
	"fmt"
	"io"
	"os"
	"os/exec"
	"path/filepath"
	"slices"
	"strings"

	"golflower/lower"
	"golflower/shown"
)

// The statuses of validate beside those of a run that is refused or stopped.
const (
	differs     = 1
	notCompared = 3
)

// schedules are those beside rotation under which golf runs a program, to see whether it has a choice.
var schedules = []string{"seed:1", "seed:2", "seed:3"}

// validator runs a program in three ways: by golf, by Go, and its lowered form by Go.
type validator struct {
	ctx context.Context
	w   words
	low *lower.Output
	dir string // for what Go builds
}

// validate says whether the three ways give the same output and the same end. A program with a choice is not compared: one
// that does something else under another schedule, or in another run by Go.
func validate(ctx context.Context, w words, low *lower.Output, stdout, stderr io.Writer) int {
	dir, err := os.MkdirTemp("", "golf-go-")
	if err != nil {
		fmt.Fprintln(stderr, "golf-go:", err)
		return noWrite
	}
	defer os.RemoveAll(dir)
	v := &validator{ctx, w, low, dir}
	told, status, err := v.told()
	if ctx.Err() != nil {
		err = errors.New("ended")
	}
	if err != nil {
		fmt.Fprintln(stderr, "golf-go:", err)
		return noRead
	}
	if put(told, stdout, stderr) != 0 {
		return noWrite
	}
	return status
}

// told is what there is to say, with the status.
func (v *validator) told() (string, int, error) {
	byGolf, refusal, status := v.byGolf()
	if refusal != "" {
		return refusal, status, nil
	}
	byGo, err := v.byGo()
	if err != nil {
		return "", 0, err
	}
	for _, runs := range []struct {
		by   string
		list []shown.Shown
	}{{"golf", byGolf}, {"Go", byGo}} {
		for _, other := range runs.list[1:] {
			if d := shown.Difference(runs.list[0], other, "in another"); d != "" {
				return fmt.Sprintf("nothing is compared, since the program has a choice: in one run by %s, %s\n", runs.by, d), notCompared, nil
			}
		}
	}
	var found []string
	if d := shown.Difference(byGo[0], byGolf[0], "by golf"); d != "" {
		found = append(found, d)
	}
	lowered, err := v.lowered()
	if err != nil {
		return "", 0, err
	}
	if lowered != nil {
		if d := shown.Difference(byGo[0], *lowered, "by Go from the lowered file"); d != "" {
			found = append(found, d)
		}
	}
	switch {
	case len(found) > 0 && v.startsGoroutines():
		return "nothing is claimed: the program starts goroutines, and this may be a choice of the schedule: by Go, " +
			strings.Join(found, "\nby Go, ") + "\n", notCompared, nil
	case len(found) > 0:
		return "different: by Go, " + strings.Join(found, "\ndifferent: by Go, ") + "\n", differs, nil
	}
	return v.same(byGo[0], lowered != nil), 0, nil
}

// startsGoroutines: the lowered file has a go statement.
func (v *validator) startsGoroutines() bool {
	for line := range strings.SplitSeq(v.low.Text, "\n") {
		if strings.HasPrefix(strings.TrimLeft(line, "\t"), "go ") {
			return true
		}
	}
	return false
}

// same says that nothing differs.
func (v *validator) same(s shown.Shown, lowered bool) string {
	ways := "by Go, by golf, and by Go from the lowered file"
	left := ""
	if !lowered {
		ways = "by Go and by golf"
		left = "the lowered file is not run by Go, since it has a clock of its own\n"
	}
	return fmt.Sprintf("the same %s: %s of output, %s\n%s", ways, count(strings.Count(s.Out, "\n"), "line"), s.End, left)
}

// byGolf runs the program under rotation and some other schedules. A text and a status say why it cannot be compared.
func (v *validator) byGolf() (runs []shown.Shown, refusal string, status int) {
	for i := range len(schedules) + 1 {
		w := v.w
		if i > 0 {
			w.golf, w.chosen = append(slices.Clone(w.golf), "--schedule", schedules[i-1]), true
		}
		var out, errs bytes.Buffer
		status := execute(v.ctx, w, v.low, false, &out, &errs)
		for _, l := range strings.Split(errs.String(), "\n") {
			for _, begin := range []string{"refused: ", "golf-go: not supported: ", "stopped after ", "out of memory"} {
				if strings.HasPrefix(l, begin) {
					return nil, "nothing is compared: " + l + "\n", status
				}
			}
		}
		if status >= usage && !strings.Contains(errs.String(), "golf-go: os.Exit(") {
			return nil, strings.TrimSpace(errs.String()) + "\n", status
		}
		runs = append(runs, shown.ByGolfGo(out.String(), errs.String(), status))
	}
	return runs, "", 0
}

// byGo builds the program by Go and runs it, twice.
func (v *validator) byGo() ([]shown.Shown, error) {
	program := filepath.Join(v.dir, "program")
	if err := v.build(program, v.goPaths()); err != nil {
		return nil, err
	}
	var runs []shown.Shown
	for range 2 {
		out, errs, status, err := v.run(program)
		if err != nil {
			return nil, err
		}
		runs = append(runs, shown.ByGo(out, errs, status))
	}
	return runs, nil
}

// goPaths are the paths of the words as the command go takes them: a folder begins with a dot or a slash.
func (v *validator) goPaths() []string {
	var paths []string
	for _, p := range v.w.paths {
		info, err := os.Stat(p)
		if err == nil && info.IsDir() && !filepath.IsAbs(p) {
			p = "./" + filepath.ToSlash(p)
		}
		paths = append(paths, p)
	}
	return paths
}

// lowered runs the lowered file by Go. It is nil for a program with a clock: by Go nobody waits for the goroutines that the
// clock wakes.
func (v *validator) lowered() (*shown.Shown, error) {
	if v.low.Clock {
		return nil, nil
	}
	file, program := filepath.Join(v.dir, "lowered.go"), filepath.Join(v.dir, "lowered")
	if err := os.WriteFile(file, []byte(v.low.Text), 0o666); err != nil {
		return nil, err
	}
	if err := v.build(program, []string{file}); err != nil {
		return nil, err
	}
	out, errs, status, err := v.run(program)
	if err != nil {
		return nil, err
	}
	s, err := shown.Lowered(out, errs, status)
	return &s, err
}

// build builds a program by Go.
func (v *validator) build(program string, paths []string) error {
	cmd := command(v.ctx, "go", append([]string{"build", "-o", program}, paths...)...)
	if said, err := cmd.CombinedOutput(); err != nil {
		return fmt.Errorf("go build: %w\n%s", err, bytes.TrimSpace(said))
	}
	return nil
}

// run runs a program that Go has built, in the zone of time that golf has.
func (v *validator) run(program string) (out, errs string, status int, err error) {
	cmd := command(v.ctx, program)
	cmd.Env = append(os.Environ(), "TZ=UTC")
	var o, e bytes.Buffer
	cmd.Stdout, cmd.Stderr = &o, &e
	err = cmd.Run()
	var ee *exec.ExitError
	if errors.As(err, &ee) && ee.Exited() {
		err = nil
	}
	if err != nil {
		return "", "", 0, err
	}
	return o.String(), e.String(), cmd.ProcessState.ExitCode(), nil
}
