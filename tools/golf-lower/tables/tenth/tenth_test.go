// Package tenth runs a fixed tenth of Go's own tests and of the examples of the standard library by golf-go: none may do
// something else than by Go, and most must be lowered.
package tenth

import (
	"os"
	"os/exec"
	"path/filepath"
	"runtime"
	"strings"
	"testing"
)

// part returns which tenth is run: the files whose number ends in this digit. GOLF_TENTH names another one.
func part() string {
	if p := os.Getenv("GOLF_TENTH"); p != "" {
		return p
	}
	return "3"
}

// program builds a program of this module.
func program(t *testing.T, pkg string) string {
	t.Helper()
	name := filepath.Join(t.TempDir(), filepath.Base(pkg))
	if out, err := exec.Command("go", "build", "-o", name, pkg).CombinedOutput(); err != nil {
		t.Fatalf("go build %s: %v\n%s", pkg, err, out)
	}
	return name
}

// verdicts runs a table's program, and counts the verdicts; a program with another answer than Go's fails the test.
func verdicts(t *testing.T, pkg string) map[string]int {
	t.Helper()
	cmd := exec.Command(program(t, pkg), "-list", "-jobs", "2", "-part", part())
	cmd.Env = append(os.Environ(), "GOLF_GO="+program(t, "golflower/cmd/golf-go"))
	out, err := cmd.Output()
	if err != nil {
		t.Fatal(err)
	}
	count := map[string]int{}
	for _, l := range strings.Split(strings.TrimSpace(string(out)), "\n") {
		w := strings.SplitN(l, "\t", 3)
		if len(w) < 2 {
			t.Fatalf("no verdict: %q", l)
		}
		count[w[1]]++
		if w[1] == "different" {
			t.Error(l)
		}
	}
	return count
}

// most checks that a part of the programs does what it does by Go.
func most(t *testing.T, count map[string]int, percent int) {
	t.Helper()
	all := 0
	for _, n := range count {
		all += n
	}
	t.Logf("%d programs: %v", all, count)
	if count["same"]*100 < all*percent {
		t.Errorf("%d of %d are the same, want %d %%", count["same"], all, percent)
	}
}

func TestATenthOfGoTests(t *testing.T) {
	ready(t, "test")
	most(t, verdicts(t, "golflower/tables/gotests"), 60)
}

func TestATenthOfTheExamples(t *testing.T) {
	ready(t, "src/strings/example_test.go")
	most(t, verdicts(t, "golflower/tables/examples"), 85)
}

// ready leaves the test out if golf or the files are not there.
func ready(t *testing.T, files string) {
	t.Helper()
	if os.Getenv("GOLF") == "" {
		t.Skip("GOLF does not name the program golf")
	}
	if _, err := os.Stat(filepath.Join(runtime.GOROOT(), files)); err != nil {
		t.Skipf("left out, since GOROOT has no %s", files)
	}
}
