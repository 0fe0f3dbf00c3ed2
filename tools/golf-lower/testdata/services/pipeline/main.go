// Command pipeline counts the lines and words of documents.
package main

import (
	"bufio"
	"context"
	"fmt"
	"sort"
	"strings"

	"example.com/pipeline/group"
	"example.com/pipeline/stage"
)

type document struct {
	name, text string
}

type count struct {
	name         string
	lines, words int
	longest      string
}

func measure(d document) (c count, err error) {
	c.name = d.name
	in := bufio.NewScanner(strings.NewReader(d.text))
	for in.Scan() {
		c.lines++
		for _, w := range strings.FieldsFunc(in.Text(), func(r rune) bool { return r == ' ' || r == ',' }) {
			c.words++
			if len(w) > len(c.longest) {
				c.longest = w
			}
		}
	}
	if c.lines == 0 {
		return c, fmt.Errorf("%s: no line", d.name)
	}
	return c, in.Err()
}

func run(documents ...document) {
	g, ctx := group.With(context.Background())
	counts := stage.Collect(stage.Map(ctx, g, 2, stage.Source(ctx, g, documents), measure))
	err := g.Wait()
	if err != nil {
		fmt.Println("failed:", err)
		return
	}
	sort.Slice(counts, func(i, j int) bool { return counts[i].name < counts[j].name })
	for _, c := range counts {
		fmt.Printf("%-6s %3d %3d %q\n", c.name, c.lines, c.words, c.longest)
	}
}

func main() {
	poem := document{"poem", "a channel,a lock\nwho waits\n\n"}
	letter := document{"letter", "Dear goroutine,\nyou have not been heard of since Monday."}
	run(poem, letter)
	run(poem, document{name: "empty"}, letter, letter, letter)
}
