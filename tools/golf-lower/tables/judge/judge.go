// Package judge compares what a program does by Go with what it does by golf-go.
package judge

import (
	"bytes"
	"context"
	"errors"
	"fmt"
	"os"
	"os/exec"
	"path/filepath"
	"strings"
	"time"

	"golflower/shown"
)

// Kind says how golf-go took a program.
type Kind string

// The kinds of verdicts.
const (
	Same      Kind = "same"
	Refused   Kind = "refused"
	Stopped   Kind = "stopped"
	Different Kind = "different"
	Unbuilt   Kind = "not built" // Go does not build the program alone
)

// Verdict is what became of a program.
type Verdict struct {
	Kind Kind
	Text string // why it is refused, or what differs
}

// Shown is what a run shows.
type Shown = shown.Shown

// byGolfGo names the way in the text of a difference.
const byGolfGo = "by golf-go"

// limit is the time that a run may take.
const limit = 60 * time.Second

// errNoEnd tells of a run that takes longer.
var errNoEnd = fmt.Errorf("no end in %v", limit)

// Run runs a program of Go.
func Run(cmd *exec.Cmd) (Shown, error) {
	out, errs, status, err := start(cmd)
	if err != nil {
		return Shown{}, err
	}
	return shown.ByGo(out, errs, status), nil
}

// RunAlone builds a file by Go as a program of its own, and runs it.
func RunAlone(dir, file string) (Shown, error) {
	program := filepath.Join(dir, "alone")
	build := exec.Command("go", "build", "-trimpath", "-o", program, file)
	build.Dir = dir
	if out, err := build.CombinedOutput(); err != nil {
		return Shown{}, fmt.Errorf("go build: %w\n%s", err, out)
	}
	return Run(exec.Command(program))
}

// start runs a command within the limit.
func start(cmd *exec.Cmd) (out, errs string, status int, err error) {
	ctx, cancel := context.WithTimeout(context.Background(), limit)
	defer cancel()
	limited := exec.CommandContext(ctx, cmd.Path, cmd.Args[1:]...)
	limited.Dir, limited.Stdin, limited.Env = cmd.Dir, cmd.Stdin, cmd.Env
	var o, e bytes.Buffer
	limited.Stdout, limited.Stderr = &o, &e
	err = limited.Run()
	if ctx.Err() != nil {
		return "", "", 0, errNoEnd
	}
	var ee *exec.ExitError
	if errors.As(err, &ee) {
		err = nil
	}
	if err != nil {
		return "", "", 0, err
	}
	return o.String(), e.String(), limited.ProcessState.ExitCode(), nil
}

// GolfGo is the program golf-go.
var GolfGo = os.Getenv("GOLF_GO")

// Ready says why golf-go cannot be started, or returns nil.
func Ready() error {
	if GolfGo == "" {
		return errors.New("GOLF_GO names no program: it is the path of golf-go, which `go build ./cmd/golf-go` makes")
	}
	if _, err := exec.LookPath(GolfGo); err != nil {
		return fmt.Errorf("GOLF_GO names no program that can be started: %w", err)
	}
	return nil
}

// quit ends the program, since golf-go cannot be started: no verdict would be one about the program that is judged.
var quit = func(err error) {
	fmt.Fprintln(os.Stderr, "golf-go cannot be started:", err)
	os.Exit(6)
}

// stopped is the verdict of a run of golf-go that gave an error.
func stopped(err error) *Verdict {
	if !errors.Is(err, errNoEnd) {
		quit(err)
	}
	return &Verdict{Stopped, err.Error()}
}

// Wanted runs golf-go on some words, and says whether the output is the one that is wanted, with status 0.
func Wanted(want string, words ...string) Verdict {
	got, v := golf(exec.Command(GolfGo, words...))
	if v != nil {
		return *v
	}
	out := strings.TrimSpace(got.Out + got.Errs)
	if out != want { // standard error may come between
		if out, v = together(exec.Command(GolfGo, words...)); v != nil {
			return *v
		}
	}
	if out != want {
		return Verdict{Different, shown.Difference(Shown{Out: want, End: got.End}, Shown{Out: out, End: got.End}, byGolfGo)}
	}
	if got.End != "status 0" {
		return Verdict{Different, got.End}
	}
	return Verdict{Kind: Same}
}

// ByGolf runs golf-go on some words in a folder, and says whether it does what Go does.
func ByGolf(want Shown, dir string, words ...string) Verdict {
	cmd := exec.Command(GolfGo, words...)
	cmd.Dir = dir
	got, v := golf(cmd)
	switch {
	case v != nil:
		return *v
	case got != want:
		return Verdict{Different, shown.Difference(want, got, byGolfGo)}
	}
	return Verdict{Kind: Same}
}

// golf runs golf-go. A verdict says why there is nothing to compare.
func golf(cmd *exec.Cmd) (Shown, *Verdict) {
	out, errs, status, v := said(cmd)
	if v != nil {
		return Shown{}, v
	}
	return shown.ByGolfGo(out, errs, status), nil
}

// Said runs golf-go on some words, and returns what it writes to its two outputs. A verdict says why there is nothing.
func Said(words ...string) (out, errs string, v *Verdict) {
	out, errs, _, v = said(exec.Command(GolfGo, words...))
	return out, errs, v
}

// cannot is the status of golf-go if it cannot start golf, or cannot read the program.
const cannot = 6

// said runs golf-go. A verdict says that the program was refused, or has not ended.
func said(cmd *exec.Cmd) (out, errs string, status int, v *Verdict) {
	out, errs, status, err := start(cmd)
	if err == nil && status == cannot && strings.HasPrefix(errs, "golf-go: ") && !strings.Contains(errs, "golf-go: os.Exit(") {
		err = errors.New(strings.TrimSpace(errs))
	}
	if err != nil {
		return "", "", 0, stopped(err)
	}
	for _, l := range strings.Split(errs, "\n") {
		switch {
		case strings.HasPrefix(l, "refused: "), strings.HasPrefix(l, "golf-go: not supported: "):
			return "", "", 0, &Verdict{Refused, l}
		case strings.HasPrefix(l, "stopped after "):
			return "", "", 0, &Verdict{Stopped, l}
		}
	}
	return out, errs, status, nil
}

// together is what a program writes to both outputs, in the order in which it does.
func together(cmd *exec.Cmd) (string, *Verdict) {
	ctx, cancel := context.WithTimeout(context.Background(), limit)
	defer cancel()
	out, err := exec.CommandContext(ctx, cmd.Path, cmd.Args[1:]...).CombinedOutput()
	var ee *exec.ExitError
	switch {
	case ctx.Err() != nil:
		return "", stopped(errNoEnd)
	case err != nil && !errors.As(err, &ee):
		return "", stopped(err)
	}
	var own []string
	for _, l := range strings.Split(string(out), "\n") {
		if !shown.OfGolfGo(l) {
			own = append(own, l)
		}
	}
	return strings.TrimSpace(strings.Join(own, "\n")), nil
}

// Reason is a refusal without its place and its details.
func Reason(text string) string {
	text = strings.TrimPrefix(strings.TrimPrefix(text, "refused: "), "golf-go: not supported: ")
	if file, rest, ok := strings.Cut(text, ".go:"); ok && !strings.Contains(file, " ") {
		if _, msg, ok := strings.Cut(rest, ": "); ok {
			text = msg
		}
	}
	text, _, _ = strings.Cut(text, " (goroutine ")
	text = strings.TrimSuffix(text, ": not supported")
	for _, before := range []string{"of type ", "conversion of ", "function ", "constant ", "type ", "range over ", "method value of "} {
		if i := strings.Index(text, before); i >= 0 {
			return text[:i+len(before)] + ".."
		}
	}
	return text
}
