package main

import (
	"bytes"
	"errors"
	"fmt"
	"os"
	"os/exec"
	"path/filepath"
	"strings"

	"golflower/load"
	"golflower/lower"
)

// The default set of golf-go test beside rotation, and the turns of each of its runs.
const (
	plainSeeds = 3
	holdSeeds  = 12
	turns      = "1000000"
)

// form is how a leak is run: as a file that sleeps at its end, or as a test that does not.
type form struct {
	name string
	more load.Source
	test bool
}

var forms = []form{
	{"file", load.Source{Name: "main.go", Text: []byte("package main\n\nimport \"time\"\n\nfunc main() {\n\tleak()\n\ttime.Sleep(10 * time.Millisecond)\n}\n")}, false},
	{"test", load.Source{Name: "leak_test.go", Text: []byte("package main\n\nimport \"testing\"\n\nfunc TestLeak(t *testing.T) { leak() }\n")}, true},
}

// lower lowers the leak, or its repaired form, with holds and without them.
func (f form) lower(text string, mended bool) (*lower.Output, error) {
	if mended {
		text = strings.Replace(text, "const mended = false", "const mended = true", 1)
	}
	program := load.Single([]load.Source{{Name: "leak.go", Text: []byte(text)}, f.more})
	return lower.Lower(program, lower.Options{Collect: true, Hold: true, Tests: f.test})
}

// reports says whether a run reports a goroutine.
func reports(text, schedule string) (bool, error) {
	cmd := exec.Command(os.Getenv("GOLF"), "run", "--turns", turns, "--every", "10000", "--schedule", schedule)
	cmd.Stdin = strings.NewReader(text)
	var errs bytes.Buffer
	cmd.Stderr = &errs
	err := cmd.Run()
	var ee *exec.ExitError
	if err != nil && (!errors.As(err, &ee) || ee.ExitCode() > 3) {
		return false, fmt.Errorf("golf: %w %s", err, errs.String())
	}
	return strings.HasPrefix(errs.String(), "goroutine ") || strings.Contains(errs.String(), "\ngoroutine "), nil
}

// count is how many of some seeds report a goroutine.
func count(text string, from, seeds int) (int, error) {
	n := 0
	for seed := from; seed < from+seeds; seed++ {
		is, err := reports(text, fmt.Sprintf("seed:%d", seed))
		if err != nil {
			return 0, err
		}
		if is {
			n++
		}
	}
	return n, nil
}

// firstSeed begins the seeds of the repetitions, which golf-go test does not use.
const firstSeed = 1000

// repeated is in how many repetitions the default set reports a goroutine. Each has seeds of its own.
func repeated(low *lower.Output, repetitions int) (int, error) {
	n := 0
	for r := range repetitions {
		is, err := set(low, firstSeed+100*r)
		if err != nil {
			return 0, err
		}
		if is {
			n++
		}
	}
	return n, nil
}

// set says whether one of the runs of the default set reports a goroutine.
func set(low *lower.Output, from int) (bool, error) {
	type one struct{ text, schedule string }
	all := []one{{low.Plain.Text, "rotate"}}
	for i := range plainSeeds {
		all = append(all, one{low.Plain.Text, fmt.Sprintf("seed:%d", from+i)})
	}
	for i := range holdSeeds {
		all = append(all, one{low.Text, fmt.Sprintf("seed:%d", from+i)})
	}
	for _, o := range all {
		if is, err := reports(o.text, o.schedule); is || err != nil {
			return is, err
		}
	}
	return false, nil
}

// searched is what golf-explore search says.
func searched(text, states string) (string, error) {
	cmd := exec.Command(os.Getenv("GOLF_EXPLORE"), "search", "--preemptions", "1", "--states", states)
	cmd.Stdin = strings.NewReader(text)
	out, err := cmd.Output()
	var ee *exec.ExitError
	if err != nil && !errors.As(err, &ee) {
		return "", err
	}
	line, _, _ := strings.Cut(string(out), "\n")
	word, _, _ := strings.Cut(line, ":")
	return fmt.Sprintf("%s, %.2f s", word, (cmd.ProcessState.UserTime() + cmd.ProcessState.SystemTime()).Seconds()), nil
}

// falseReports is how many runs of a repaired form report a goroutine: half of them have holds.
func falseReports(low *lower.Output, runs int) (int, error) {
	plain, err := count(low.Plain.Text, 1, runs/2)
	if err != nil {
		return 0, err
	}
	held, err := count(low.Text, 1, runs-runs/2)
	return plain + held, err
}

// profileMain runs the leak by Go and writes the leak profile.
const profileMain = `package main

import (
	"os"
	"runtime/pprof"
	"time"
)

func main() {
	leak()
	time.Sleep(10 * time.Millisecond)
	if p := pprof.Lookup("goroutineleak"); p != nil {
		p.WriteTo(os.Stderr, 2)
	}
}
`

// profiled is in how many runs Go's own profile has a leaked goroutine.
func profiled(text string, runs int) (string, error) {
	if runs == 0 {
		return "not run", nil
	}
	dir, err := os.MkdirTemp("", "textbook-")
	if err != nil {
		return "", err
	}
	defer os.RemoveAll(dir)
	err = errors.Join(
		os.WriteFile(filepath.Join(dir, "leak.go"), []byte(text), 0o666),
		os.WriteFile(filepath.Join(dir, "main.go"), []byte(profileMain), 0o666),
		os.WriteFile(filepath.Join(dir, "go.mod"), []byte("module leak\n\ngo 1.24\n"), 0o666))
	if err != nil {
		return "", err
	}
	build := exec.Command("go", "build", "-o", "leak", ".")
	build.Dir = dir
	if said, err := build.CombinedOutput(); err != nil {
		return "", fmt.Errorf("go build: %w\n%s", err, said)
	}
	n := 0
	for range runs {
		said, err := exec.Command(filepath.Join(dir, "leak")).CombinedOutput()
		if err != nil {
			return "", fmt.Errorf("by Go: %w\n%s", err, said)
		}
		if bytes.Contains(said, []byte("(leaked)")) {
			n++
		}
	}
	return fmt.Sprintf("%d of %d", n, runs), nil
}
