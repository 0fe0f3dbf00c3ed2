package verdict

import (
	"fmt"
	"io"
	"slices"
	"strings"
)

// Baseline has leaks that are known and not mended yet, by their keys.
type Baseline struct {
	keys []string
	seen map[string]bool
}

// Key names a leak without lines, which other changes move: file, function and kind of the wait, and who started the goroutine.
func (g *Goroutine) Key() string {
	started := "the program"
	if g.Started != nil {
		started = g.Started.Function
	}
	return fmt.Sprintf("%s: %s in %s, started in %s", g.At.slashed(), g.Wait, g.At.Function, started)
}

// ReadBaseline reads keys, one a line. Empty lines and lines that begin with # are left out.
func ReadBaseline(text string) *Baseline {
	b := &Baseline{seen: map[string]bool{}}
	for _, l := range strings.Split(text, "\n") {
		l = strings.TrimSpace(l)
		if l != "" && !strings.HasPrefix(l, "#") && !slices.Contains(b.keys, l) {
			b.keys = append(b.keys, l)
		}
	}
	return b
}

// Has says whether a leak is known. A nil baseline knows none.
func (b *Baseline) Has(g *Goroutine) bool { return b != nil && slices.Contains(b.keys, g.Key()) }

// Unseen are the keys of the baseline that no test has shown.
func (b *Baseline) Unseen(packages []*Package) []string {
	if b == nil {
		return nil
	}
	for _, p := range packages {
		for _, t := range p.Tests {
			for _, g := range t.Known {
				b.seen[g.Key()] = true
			}
		}
	}
	var left []string
	for _, k := range b.keys {
		if !b.seen[k] {
			left = append(left, k)
		}
	}
	return left
}

// WriteBaseline writes the keys of all leaks, the known ones too.
func WriteBaseline(to io.Writer, packages []*Package) error {
	var keys []string
	for _, p := range packages {
		for _, t := range p.Tests {
			list := t.Known
			if t.Kind == Leak {
				list = append(slices.Clone(list), t.Goroutines...)
			}
			for _, g := range list {
				keys = append(keys, g.Key())
			}
		}
	}
	slices.Sort(keys)
	lines := append([]string{"# Leaks that are known and not mended yet. golf-go test -baseline reads them."}, slices.Compact(keys)...)
	_, err := io.WriteString(to, strings.Join(lines, "\n")+"\n")
	return err
}
