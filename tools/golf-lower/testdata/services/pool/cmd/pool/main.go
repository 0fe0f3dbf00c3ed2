// Command pool counts the words of some texts on three workers.
package main

import (
	"context"
	"errors"
	"fmt"
	"os"
	"sort"
	"strings"

	"example.com/pool"
)

var texts = map[string]string{
	"empty": "",
	"one":   "a goroutine waits",
	"two":   "a goroutine waits for a channel that no other goroutine has",
	"bad":   "\x00",
}

var errBinary = errors.New("binary text")

func words(name, text string) pool.Job[map[string]int] {
	return func(context.Context) (map[string]int, error) {
		if strings.ContainsRune(text, 0) {
			return nil, fmt.Errorf("%s: %w", name, errBinary)
		}
		count := map[string]int{}
		for _, w := range strings.Fields(text) {
			count[w]++
		}
		return count, nil
	}
}

func main() {
	p := pool.New[map[string]int](3)
	var names []string
	for name := range texts {
		names = append(names, name)
	}
	sort.Strings(names)
	var jobs []pool.Job[map[string]int]
	for _, name := range names {
		jobs = append(jobs, words(name, texts[name]))
	}
	results, err := p.All(context.Background(), jobs...)
	fmt.Println("binary:", errors.Is(err, errBinary), err)
	total := map[string]int{}
	for _, r := range results {
		for w, n := range r {
			total[w] += n
		}
	}
	fmt.Println(total)
	p.Close()
	fmt.Printf("%+v\n", p.Stats())
	if _, err := p.Submit(context.Background(), jobs[0]); err != nil {
		fmt.Fprintln(os.Stderr, err)
		os.Exit(3)
	}
}
