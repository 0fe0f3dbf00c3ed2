package main

import (
	"context"
	"fmt"
	"slices"
	"strings"

	"golflower/lower"
	"golflower/traced"
)

// allAsleep begins the line of a run that ended with all goroutines asleep.
const allAsleep = "fatal error: all goroutines are asleep"

// tracer runs golf-explore trace.
func tracer(ctx context.Context) traced.Tracer {
	return func(text string, words []string, out, told func(line string)) error {
		cmd := command(ctx, program("GOLF_EXPLORE", "golf-explore"), append([]string{"trace"}, words...)...)
		cmd.Stdin = strings.NewReader(text)
		cmd.Stdout, cmd.Stderr = &lines{line: out}, &lines{line: told}
		if err := cmd.Run(); failed(err) {
			return err
		}
		return nil
	}
}

// waiting are the lines that tell who waits where, if the run ended with all goroutines asleep.
func (r *reporter) waiting(ctx context.Context, w words) []string {
	if !slices.ContainsFunc(r.late, func(l string) bool { return strings.HasPrefix(l, allAsleep) }) {
		return nil
	}
	waits, err := traced.Waits(tracer(ctx), r.low.Text, r.again(w))
	if err != nil {
		return []string{"golf-go: golf-explore tells who waits where, and it could not be run: " + err.Error()}
	}
	if len(waits) == 0 {
		return []string{fmt.Sprintf("golf-go: who waits where is told of runs with at most %d turns", traced.MostTurns)}
	}
	var told []string
	for _, one := range waits {
		if r.ofUser(one.Line) || r.ofUser(one.Started) {
			g := waiter(r.low, one)
			told = append(told, g.Line())
		}
	}
	return told
}

// again are the words that repeat the run.
func (r *reporter) again(w words) []string {
	if w.threads {
		return []string{"--schedule", "choices:" + r.history}
	}
	return w.line()[1:]
}

// callers finds the user's line where the code was called that panics in generated code: for a goroutine the line of the
// lowered file, 0 if it is not known. The words repeat the run.
func (r *reporter) callers(ctx context.Context, words []string) func(goroutine int) int {
	return func(goroutine int) int {
		if words == nil {
			return 0
		}
		return traced.Caller(tracer(ctx), r.low.Text, words, goroutine, r.ofUser)
	}
}

// ofUser: a line of the lowered file comes from a file of the user.
func (r *reporter) ofUser(n int) bool {
	return n >= 1 && n <= len(r.low.Lines) && r.low.Lines[n-1] != lower.Place{} && r.low.Lines[n-1].Line > 0
}

// goroutine is the line of golf on a blocked goroutine, with the user's places and with what it waits on.
func (r *reporter) goroutine(l string) string {
	g, rest, ok := reported(r.low, l)
	if !ok {
		return r.places(l)
	}
	return g.Line() + rest
}
