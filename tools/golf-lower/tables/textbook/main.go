// Command textbook tells which schedules show the leaks of testdata/textbook, and writes a table: in how many of some seeds
// each is reported, without and with holds, in how many repetitions of the default set of golf-go test with other seeds, and
// whether a search finds it; beside them, in how many runs Go's own leak profile has it. The repaired forms must show nothing.
//
//	go run ./tables/textbook [-seeds N] [-repetitions N] [-repaired N] [-go N] [-only NAME]
//
// GOLF and GOLF_EXPLORE name the programs golf and golf-explore.
package main

import (
	"flag"
	"fmt"
	"os"
	"path/filepath"
	"strings"
)

var (
	folder      = flag.String("folder", "testdata/textbook", "where the leaks are")
	seeds       = flag.Int("seeds", 40, "the seeds of the columns without and with holds")
	repetitions = flag.Int("repetitions", 20, "how often the default set is tried, each time with other seeds")
	repaired    = flag.Int("repaired", 1000, "the runs of each repaired form")
	byGo        = flag.Int("go", 100, "the runs by Go, 0 for none")
	states      = flag.String("states", "5000", "the states of a search")
	only        = flag.String("only", "", "the one leak that is looked at")
)

const head = `| leak | form | Go's profile | plain seeds | seeds with holds | default set | search | repaired form |
|---|---|---|---|---|---|---|---|
`

func main() {
	flag.Parse()
	files, err := filepath.Glob(filepath.Join(*folder, "*.go"))
	if err != nil || len(files) == 0 {
		fail(fmt.Errorf("no leaks in %s: %v", *folder, err))
	}
	fmt.Print(head)
	for _, file := range files {
		name := strings.TrimSuffix(filepath.Base(file), ".go")
		if *only != "" && *only != name {
			continue
		}
		text, err := os.ReadFile(file)
		if err != nil {
			fail(err)
		}
		profile, err := profiled(string(text), *byGo)
		if err != nil {
			fail(err)
		}
		for _, f := range forms {
			if err := row(name, string(text), profile, f); err != nil {
				fail(err)
			}
			profile = ""
		}
	}
}

func fail(err error) {
	fmt.Fprintln(os.Stderr, err)
	os.Exit(6)
}

// row writes the row of a leak in one form.
func row(name, text, profile string, f form) error {
	leak, err := f.lower(text, false)
	if err != nil {
		return fmt.Errorf("%s: %w", name, err)
	}
	mended, err := f.lower(text, true)
	if err != nil {
		return fmt.Errorf("%s, repaired: %w", name, err)
	}
	plain, err := count(leak.Plain.Text, 1, *seeds)
	if err != nil {
		return err
	}
	held, err := count(leak.Text, 1, *seeds)
	if err != nil {
		return err
	}
	sets, err := repeated(leak, *repetitions)
	if err != nil {
		return err
	}
	found, err := searched(leak.Plain.Text, *states)
	if err != nil {
		return err
	}
	wrong, err := falseReports(mended, *repaired)
	if err != nil {
		return err
	}
	fmt.Printf("| %s | %s | %s | %d of %d | %d of %d | %d of %d | %s | %d of %d |\n", name, f.name, profile,
		plain, *seeds, held, *seeds, sets, *repetitions, found, wrong, *repaired)
	return nil
}
