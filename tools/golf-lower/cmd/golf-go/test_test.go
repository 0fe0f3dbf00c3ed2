package main

import (
	"bytes"
	"encoding/json"
	"encoding/xml"
	"io"
	"os"
	"os/exec"
	"path/filepath"
	"regexp"
	"strings"
	"testing"
	"time"
)

// scheduleRE is a schedule that shows something: which one does depends on how the test is lowered.
var scheduleRE = regexp.MustCompile(`((--hold |--clock loose )?--every \d+ --schedule (seed|choices):[\d,]+|--every 10000 --schedule rotate)`)

// inCopy runs golf-go test in a copy of a module of testdata: a search writes into its folders.
func inCopy(t *testing.T, module, line string) (out, errs string, status int) {
	t.Helper()
	explorers(t)
	dir := filepath.Join(t.TempDir(), module)
	if err := os.CopyFS(dir, os.DirFS("../../testdata/"+module)); err != nil {
		t.Fatal(err)
	}
	t.Chdir(dir)
	return tested(t, line)
}

// tested runs golf-go test in the current folder. No time passes.
func tested(t *testing.T, line string) (out, errs string, status int) {
	t.Helper()
	old := now
	now = func() time.Time { return time.Unix(1, 0) }
	defer func() { now = old }()
	var o, e bytes.Buffer
	status = run(t.Context(), append([]string{"test"}, strings.Fields(line)...), &o, &e)
	return scheduleRE.ReplaceAllString(o.String(), "WORDS"), e.String(), status
}

// The tests of a module end as they should, and what is written is that of expect.txt, byte for byte.
func TestTestsOfAModule(t *testing.T) {
	want, err := os.ReadFile("../../testdata/testing/expect.txt")
	if err != nil {
		t.Fatal(err)
	}
	out, errs, status := inCopy(t, "testing", "-states 1500 -search 1m ./...")
	if out != string(want) || errs != "" || status != 2 {
		t.Errorf("status %d\n%s%s", status, out, errs)
	}
}

// The status tells the worst that is found.
func TestTheStatusOfTests(t *testing.T) {
	inCopy(t, "testing", "./none")
	for line, want := range map[string]int{
		"./good":                             0,
		"./none":                             0,
		"./good ./bad":                       2,
		"./asleep -run TestNobody":           2,
		"./leaky -run TestAsks -search 0":    1,
		"./endless":                          3,
		"./refusing":                         4,
		"./refusing -allow-refused":          0,
		"./refusing -run TestFine":           0,
		"./leaky ./endless -skip Fail|First": 1,
		"./good --timeout 1ns":               3,
		"./nowhere":                          4,
	} {
		if out, errs, status := tested(t, line+" -states 100"); status != want {
			t.Errorf("%s: status %d, want %d\n%s%s", line, status, want, out, errs)
		}
	}
}

// A package that Go does not compile is refused with the place of the fault.
func TestAPackageThatDoesNotCompileIsRefused(t *testing.T) {
	out, _, status := inCopy(t, "broken", "")
	if !strings.HasPrefix(out, "refused: broken_test.go:5:33: undefined: nowhere\nFAIL\texample.com/broken\t") || status != 4 {
		t.Errorf("status %d\n%s", status, out)
	}
}

// events are what the events of go test -json say of each test: how it ends, and the lines with a place that it tells.
func events(t *testing.T, out []byte) (ends, told map[string]string) {
	t.Helper()
	ends, told = map[string]string{}, map[string]string{}
	for d := json.NewDecoder(bytes.NewReader(out)); ; {
		var e struct {
			Time                          time.Time
			Action, Package, Test, Output string
			Elapsed                       float64
		}
		if err := d.Decode(&e); err == io.EOF {
			return ends, told
		} else if err != nil {
			t.Fatal(err)
		}
		name := e.Package + " " + e.Test
		switch {
		case e.Action == "pass", e.Action == "fail", e.Action == "skip":
			ends[name] += e.Action
		case e.Action == "output" && strings.Contains(e.Output, "_test.go:"):
			told[name] += strings.TrimLeft(e.Output, " ")
		}
	}
}

// The events have the tests, the parts, the verdicts and the lines of go test -json, those of helpers too.
func TestJSONIsThatOfGoTest(t *testing.T) {
	const line = "-json ./good ./bad ./around ./parallel ./none -skip Panics"
	out, _, _ := inCopy(t, "testing", line+" -states 100")
	cmd := exec.Command("go", append([]string{"test"}, strings.Fields(line)...)...)
	said, _ := cmd.Output() // some tests fail
	ends, told := events(t, said)
	gotEnds, gotTold := events(t, []byte(out))
	if len(ends) < 15 {
		t.Fatalf("go test -json tells of %d tests", len(ends))
	}
	for name, action := range ends {
		if gotEnds[name] != action {
			t.Errorf("%s: %q, want %q", name, gotEnds[name], action)
		}
		if gotTold[name] != told[name] {
			t.Errorf("%s tells\n%swant\n%s", name, gotTold[name], told[name])
		}
		delete(gotEnds, name)
	}
	for name := range gotEnds {
		t.Errorf("%s: go test knows no such test", name)
	}
}

// -sarif and -junit write files that their readers take.
func TestTheFilesForCodeHostsAndCI(t *testing.T) {
	inCopy(t, "testing", "-states 100 -sarif leaks.sarif -junit tests.xml ./leaky ./refusing")
	text, err := os.ReadFile("leaks.sarif")
	if err != nil {
		t.Fatal(err)
	}
	var log struct {
		Runs []struct{ Results []struct{ RuleID string } }
	}
	if err := json.Unmarshal(text, &log); err != nil || len(log.Runs) != 1 || len(log.Runs[0].Results) != 2 {
		t.Errorf("%v\n%s", err, text)
	}
	if text, err = os.ReadFile("tests.xml"); err != nil {
		t.Fatal(err)
	}
	var suites struct {
		Suites []struct {
			Tests    int `xml:"tests,attr"`
			Failures int `xml:"failures,attr"`
			Skipped  int `xml:"skipped,attr"`
		} `xml:"testsuite"`
	}
	if err := xml.Unmarshal(text, &suites); err != nil || len(suites.Suites) != 2 {
		t.Fatalf("%v\n%s", err, text)
	}
	if l, r := suites.Suites[0], suites.Suites[1]; l.Tests != 4 || l.Failures != 3 || r.Tests != 2 || r.Skipped != 1 {
		t.Errorf("%+v", suites)
	}
}

// A leak of the baseline does not count. One that is not seen any more is told.
func TestABaselineKeepsKnownLeaksOut(t *testing.T) {
	if _, _, status := inCopy(t, "testing", "./leaky -states 100 -skip Fails -baseline known -update"); status != 0 {
		t.Errorf("status %d of -update", status)
	}
	text, err := os.ReadFile("known")
	const want = "leaky/leaky.go: chan send in Ask.func1, started in Ask\n" +
		"leaky/leaky.go: chan send in First.func1, started in First\n"
	if err != nil || !strings.HasSuffix(string(text), "\n"+want) {
		t.Fatalf("%v\n%s", err, text)
	}
	out, errs, status := tested(t, "./leaky -states 100 -skip Fails -baseline known")
	if status != 0 || !strings.Contains(out, "2 leaks of the baseline") || errs != "" {
		t.Errorf("status %d\n%s%s", status, out, errs)
	}
	if _, errs, status = tested(t, "./good -states 100 -baseline known"); status != 0 || strings.Count(errs, "this leak was not seen") != 2 {
		t.Errorf("status %d\n%s", status, errs)
	}
}

// What a search has found goes into a file, and is tried from then on, also without a search.
func TestALeakThatASearchHasFoundIsTriedEachTime(t *testing.T) {
	const file = "raced/testdata/golf/TestLosesAnAddition"
	if out, _, status := inCopy(t, "testing", "./raced -search 0"); status != 0 {
		t.Fatalf("without a search: status %d\n%s", status, out)
	}
	found, errs, status := tested(t, "./raced")
	if status != 1 || errs != "" {
		t.Fatalf("status %d\n%s%s", status, found, errs)
	}
	kept, err := os.ReadFile(file)
	if err != nil || strings.Count(string(kept), "\n") != 2 || !strings.Contains(string(kept), " --schedule choices:") {
		t.Fatalf("%v\n%s", err, kept)
	}
	again, errs, status := tested(t, "./raced -search 0")
	if again != found || errs != "" || status != 1 {
		t.Errorf("status %d\n%s%swant\n%s", status, again, errs, found)
	}
	if text, err := os.ReadFile(file); err != nil || string(text) != string(kept) {
		t.Errorf("%v: the file has changed\n%s", err, text)
	}
}

// A file may have schedules of any kind. What is wrong in it is told.
func TestTheFilesOfSchedules(t *testing.T) {
	if _, errs, status := inCopy(t, "testing", "./leaky -run TestAsks$ -search 0"); status != 0 {
		t.Fatalf("status %d\n%s", status, errs)
	}
	const file = "leaky/testdata/golf/TestAsks"
	if err := os.MkdirAll(filepath.Dir(file), 0o777); err != nil {
		t.Fatal(err)
	}
	for text, want := range map[string]string{
		"# none\n\n--hold --every 10000 --schedule seed:7\n":        "",
		"--every 10000 --schedule sed:7\n":                          "no value of --schedule: sed:7",
		"-v --schedule seed:7\n":                                    "no word of a schedule: -v",
		"--schedule=seed:1 --turns 100000 --every=50 --clock loose": "",
	} {
		if err := os.WriteFile(file, []byte(text), 0o666); err != nil {
			t.Fatal(err)
		}
		_, errs, status := tested(t, "./leaky -run TestAsks$ -search 0")
		if status != 0 || want == "" && errs != "" || !strings.Contains(errs, want) {
			t.Errorf("%q: status %d, %s", text, status, errs)
		}
	}
}

func TestWordsOfTest(t *testing.T) {
	for line, want := range map[string]string{
		"-frobnicate":          "no word of golf-go test: -frobnicate",
		"-run":                 "no value after -run",
		"-run [":               "invalid value \"[\" for flag -run: error parsing regexp",
		"-run TestX/y":         "invalid value \"TestX/y\" for flag -run: parts of tests cannot be chosen",
		"-timeout 0s":          "no value of -timeout: 0s",
		"-search -1s":          "no value of -search: -1s",
		"--states 0":           "no value of -states: 0",
		"-p 0":                 "no value of -p: 0",
		"-update":              "-update writes the file that -baseline names, and none is named",
		"--schedule":           "no value after --schedule",
		"--schedule never ./x": "no value of --schedule: never",
		"--clock fast":         "--clock fast: the clocks are strict, which is the default, and loose",
	} {
		out, errs, status := tested(t, line)
		if !strings.HasPrefix(errs, "golf-go: "+want) || out != "" || status != 5 {
			t.Errorf("%s: status %d, %s%s", line, status, out, errs)
		}
	}
}
