package main

import (
	"fmt"
	"io"
	"strings"
)

// usages are the lines of use of each word of the family, "" for files alone.
var usages = map[string]string{
	"":        "golf-go FILE.go .. | FOLDER [words of golf run]",
	"run":     "golf-go run PACKAGE [words of golf run]",
	"test":    "golf-go test PACKAGES [words]",
	"explore": "golf-go explore PACKAGE [words of golf-explore all]",
	"search":  "golf-go search PACKAGE [words of golf-explore search]",
	"page":    "golf-go page PACKAGE [words of golf run, or an answer of golf-explore] > PAGE",
	"check":   "golf-go check PACKAGES",

	"validate": "golf-go validate PACKAGE [--turns N]",
}

// effects say what each word does.
var effects = map[string]string{
	"":        "runs the files of one package, or calls each TestX of them",
	"run":     "runs a main package as the command go finds it: a folder, an import path, or files",
	"test":    "runs each test as a program of its own, and looks for goroutines that can never run again",
	"explore": "looks at every schedule; the words of a leak show it by golf-go run",
	"search":  "looks for a schedule with few preemptions that shows a bug",
	"page":    "shows a run as one page, which needs nothing else",
	"check":   "lowers main packages and each of their tests, and runs nothing",

	"validate": "says whether a program does by golf what it does by Go, and its lowered file by Go",
}

const (
	ownWords = `    --late            goroutines that the program starts wait before they begin
    --pause           a goroutine waits, now and then, before it sends, receives, locks, waits or closes
    --hold            a goroutine waits, where the schedule chooses so, before it begins and before what others can see
    --clock loose     time passes while goroutines run
`
	testHelp = `    -run R, -skip R   the tests whose names match, or do not
    -v                tell of each test
    -short            testing.Short is true
    -search D         the most time of a search for each test, 5s if it is not said; 0 searches nothing
    -states N         the most states of it, 1 to 1,000,000; 5,000 if it is not said
    -timeout D        the most time of the whole run, 10m if it is not said
    -p N              packages at the same time
    -allow-refused    what is refused does not count
    -json             the events of go test -json, with the fields Verdict and Leaks
    -sarif FILE       write the leaks for code hosts
    -junit FILE       write the tests for CI
    -baseline FILE    the leaks that are known and not mended yet
    -update           write the leaks of this run into the file of -baseline
`
	chosenWords = `    --schedule S      run each test once, by rotate, seed:N, or choices:N,N,..
    --turns N         with the most turns, 1 to 10,000,000
    --every N         and a collection after each N-th turn
`
	runWords = `    --schedule S      rotate, seed:N, or choices:N,N,..
    --turns N         the most turns, 1 to 10,000,000, which is the default
    --every N         a collection after each N-th turn; without it and --schedule after each 10,000th
    --markers N       how many threads mark, 1 to 16
    --recover         remove dead goroutines and free their memory
    --why             tell why each blocked goroutine that is live is so
    --threads N       run by N threads, with no other word of golf run
`
	turnsWord = `    --turns N         the most turns, 1 to 10,000,000, which is the default
`
	allWords = `    --states N        the most states that are kept, 1 to 1,000,000
`
	searchWords = `    --for A           leak, panic or asleep
    --preemptions K   the most preemptions, 0 to 16
    --states N        the most states that are kept, 1 to 1,000,000
    --seconds S       the most seconds that it takes, 1 to 86,400
`
	testEnds = `
Status, the first that fits:
    2                 a test fails or panics, or all goroutines are asleep
    1                 a goroutine is reported
    3                 a test was stopped
    4                 something was refused
    5                 the words are wrong
    6                 a file or a package cannot be read, or golf-go was ended

GOLF and GOLF_EXPLORE may name other programs.
`
	ends = `
Status:
    0 to 3, 7, 8      that of the program that is run
    N                 that of os.Exit(N)
    4                 something is refused
    5                 the words are wrong
    6                 a file or a package cannot be read, or golf-go was ended

GOLF, GOLF_EXPLORE and GOLF_PAGE may name other programs, and GOLF_LOWERED a file for the lowered text.
`
)

// wordsOf are the words that a mode takes behind the package.
var wordsOf = map[string]string{
	"":        ownWords + runWords,
	"run":     ownWords + runWords,
	"test":    testHelp + ownWords + chosenWords,
	"explore": ownWords + allWords,
	"search":  ownWords + searchWords,
	"page":    ownWords + runWords,
	"check":   ownWords,

	"validate": ownWords + turnsWord,
}

// help is the text of golf-go --help, or of one word of the family.
func help(mode string) string {
	var sb strings.Builder
	if mode != "" {
		end := ends
		if mode == "test" {
			end = testEnds
		}
		fmt.Fprintf(&sb, "usage: %s\n\nIt %s.\n\n%s%s", usages[mode], effects[mode], wordsOf[mode], end)
		return sb.String()
	}
	sb.WriteString("usage:\n")
	for _, m := range append([]string{""}, modes...) {
		fmt.Fprintf(&sb, "    %s\n        %s\n", usages[m], effects[m])
	}
	fmt.Fprintf(&sb, "    golf-go --version\n        shows the release that is used\n    golf-go WORD --help\n        shows the words "+
		"of run, test, explore, search, page, check or validate\n\nWords of golf-go itself:\n\n%sWords of golf run:\n\n%s%s", ownWords+"\n", runWords, ends)
	return sb.String()
}

// put writes a text that was asked for.
func put(text string, stdout, stderr io.Writer) int {
	if _, err := io.WriteString(stdout, text); err != nil {
		fmt.Fprintln(stderr, "golf-go:", err)
		return noWrite
	}
	return 0
}
