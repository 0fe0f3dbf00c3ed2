package verdict

import (
	"bytes"
	"encoding/json"
	"encoding/xml"
	"io"
	"strings"
	"testing"
	"time"
)

// sample has a test of each kind.
func sample() []*Package {
	at := Place{File: "pool/pool.go", Line: 12, Column: 3, Function: "(*Pool).work"}
	from := Place{File: "pool/pool.go", Line: 7, Column: 2, Function: "New"}
	locked := Place{File: "pool/pool.go", Line: 9, Column: 2, Function: "New"}
	return []*Package{
		{Path: "example.com/m/pool", HasTests: true, Elapsed: 1500 * time.Millisecond, Tests: []*Test{
			{Name: "TestFine", Log: "    --- PASS: TestFine/part\n        pool_test.go:4: told\n", Tried: Tried{Schedules: 16, Preemptions: 1}},
			{Name: "TestSkipped", Kind: Skip, Log: "    pool_test.go:9: not today\n"},
			{Name: "TestWrong", Kind: Fail, Printed: "printed\n", Log: "    pool_test.go:20: got <1>\n"},
			{Name: "TestLeaks", Kind: Leak, Goroutines: []Goroutine{
				{Number: 5, Wait: "chan send", At: at, Started: &from, On: []Thing{{"p.out", []Place{from}}}, More: 2, Again: "golf-go test -run '^TestLeaks$' --schedule seed:3 pool"},
			}},
			{Name: "TestLocks", Kind: Deadlock, Reasons: []string{"fatal error: all goroutines are asleep - deadlock!"},
				Goroutines: []Goroutine{{Number: 2, Wait: "sync.Mutex.Lock", At: at, Started: &from, Holder: 3, Locked: &locked}}},
			{Name: "TestRefused", Kind: Refused, Reasons: []string{"pool_test.go:30:4: type complex128: not supported"}},
			{Name: "TestLong", Kind: Stopped, Reasons: []string{"stopped after 10000000 turns"}},
		}},
		{Path: "example.com/m/none"},
		{Path: "example.com/m/broken", HasTests: true, Refused: "broken_test.go:5:30: undefined: nowhere"},
	}
}

const wantText = `--- FAIL: TestWrong (0.00s)
    pool_test.go:20: got <1>
--- LEAK: TestLeaks (0.00s)
    goroutine 5: chan send at pool/pool.go:12:3 in (*Pool).work
        started at pool/pool.go:7:2 in New
        waits on p.out (made at pool/pool.go:7:2 in New)
        and 2 more at the same places
    shown again by: golf-go test -run '^TestLeaks$' --schedule seed:3 pool
--- DEADLOCK: TestLocks (0.00s)
    fatal error: all goroutines are asleep - deadlock!
    goroutine 2: sync.Mutex.Lock at pool/pool.go:12:3 in (*Pool).work
        started at pool/pool.go:7:2 in New
        locked by goroutine 3 at pool/pool.go:9:2 in New
--- REFUSED: TestRefused (0.00s)
    pool_test.go:30:4: type complex128: not supported
--- STOPPED: TestLong (0.00s)
    stopped after 10000000 turns
FAIL	example.com/m/pool	1.50s	[1 ok, 1 SKIP, 1 FAIL, 1 DEADLOCK, 1 LEAK, 1 stopped, 1 refused]
?   	example.com/m/none	[no test files]
refused: broken_test.go:5:30: undefined: nowhere
FAIL	example.com/m/broken	0.00s	[1 refused]
`

func TestAGoroutineIsToldInOneLine(t *testing.T) {
	at, made := Place{"a.go", 5, 2, "send"}, Place{"a.go", 3, 7, "main"}
	for _, c := range []struct {
		g    Goroutine
		want string
	}{
		{Goroutine{Number: 1, Wait: "chan send", At: at}, "goroutine 1: chan send at a.go:5:2 in send"},
		{Goroutine{Number: 2, Wait: "chan send", At: at, Started: &Place{Function: "the clock"}},
			"goroutine 2: chan send at a.go:5:2 in send, started in the clock"},
		{Goroutine{Number: 3, Wait: "select", At: at, On: []Thing{{"c", []Place{made, at}}, {"d", nil}}},
			"goroutine 3: select at a.go:5:2 in send, on c (made at a.go:3:7 in main or a.go:5:2 in send) and d"},
		{Goroutine{Number: 4, Wait: "sync.Mutex.Lock", At: at, On: []Thing{{"a", nil}, {"b", nil}}, Holder: 4, Locked: &made},
			"goroutine 4: sync.Mutex.Lock at a.go:5:2 in send, on a or b, locked by itself at a.go:3:7 in main"},
	} {
		if got := c.g.Line(); got != c.want {
			t.Errorf("%s, want %s", got, c.want)
		}
	}
}

func TestTextHasALineForEachPackage(t *testing.T) {
	var sb strings.Builder
	x := &Text{Out: &sb}
	for _, p := range sample() {
		x.Package(p)
	}
	if got := sb.String(); got != "printed\n"+wantText {
		t.Errorf("got\n%s", got)
	}
}

func TestVerboseTextTellsWhatWasTried(t *testing.T) {
	var sb strings.Builder
	p := sample()[0]
	p.Tests = p.Tests[:2]
	(&Text{Out: &sb, Verbose: true}).Package(p)
	const want = `=== RUN   TestFine
--- PASS: TestFine (0.00s)
    --- PASS: TestFine/part
        pool_test.go:4: told
    no leak by 16 schedules and a search to 1 preemption
=== RUN   TestSkipped
--- SKIP: TestSkipped (0.00s)
    pool_test.go:9: not today
ok  	example.com/m/pool	1.50s	[1 ok, 1 SKIP]
`
	if got := sb.String(); got != want {
		t.Errorf("got\n%s", got)
	}
}

func TestTheSummarySaysByWhatNoLeakWasFound(t *testing.T) {
	every := &Test{Name: "TestSmall", Tried: Tried{Schedules: 16, Preemptions: -1, Every: true}}
	searched := &Test{Name: "TestLarge", Tried: Tried{Schedules: 15, Preemptions: -1, States: 5000, Loose: true}}
	alone := &Test{Name: "TestAlone", Tried: Tried{Schedules: 1, Preemptions: -1, Alone: true}}
	known := &Test{Name: "TestKnown", Known: make([]Goroutine, 2), Tried: Tried{Schedules: 1, Preemptions: -1}}
	for _, c := range []struct {
		tests []*Test
		want  string
	}{
		{nil, "golf-go: no tests"},
		{sample()[0].Tests[2:3], "golf-go: 1 test: 1 FAIL"},
		{[]*Test{every}, "golf-go: 1 test: 1 ok; no leak in 1 test by every schedule of the lowered file"},
		{[]*Test{every, searched, every}, "golf-go: 3 tests: 3 ok; no leak in tests: 2 by every schedule of the lowered file, " +
			"1 by 15 schedules and a search of 5000 states (--clock loose)"},
		{[]*Test{alone}, "golf-go: 1 test: 1 ok; no leak in 1 test by 1 schedule, since no goroutine is started"},
		{[]*Test{known}, "golf-go: 1 test: 1 ok; 2 leaks of the baseline; no leak in 1 test by 1 schedule"},
	} {
		if got := Summary([]*Package{{Path: "p", HasTests: true, Tests: c.tests}}); got != c.want {
			t.Errorf("got  %s\nwant %s", got, c.want)
		}
	}
}

// The status is the first that fits: that of a failure before that of a leak, and that before the others.
func TestStatus(t *testing.T) {
	for _, c := range []struct {
		kinds   []Kind
		allowed bool
		want    int
	}{
		{[]Kind{OK, Skip}, false, 0},
		{[]Kind{Refused, Stopped, Leak, Deadlock}, false, 2},
		{[]Kind{Refused, Stopped, Leak, Fail}, false, 2},
		{[]Kind{Refused, Stopped, Leak}, false, 1},
		{[]Kind{Refused, Stopped}, false, 3},
		{[]Kind{Refused, OK}, false, 4},
		{[]Kind{Refused, OK}, true, 0},
		{[]Kind{Refused, Stopped}, true, 3},
	} {
		p := &Package{Path: "p"}
		for _, k := range c.kinds {
			p.Tests = append(p.Tests, &Test{Kind: k})
		}
		if got := Status([]*Package{p}, c.allowed); got != c.want {
			t.Errorf("%v: %d, want %d", c.kinds, got, c.want)
		}
	}
	if got := Status(sample()[2:], false); got != 4 {
		t.Errorf("a package that cannot be loaded: %d", got)
	}
}

func TestSplitTakesTheOutputOfATestApart(t *testing.T) {
	for _, c := range []struct{ out, printed, word, log string }{
		{"--- PASS: TestX\nPASS\n", "", "PASS", ""},
		{"a\n--- FAIL: TestX\n    x_test.go:3: told\n    --- FAIL: TestX/y\nFAIL\n", "a\n", "FAIL", "    x_test.go:3: told\n    --- FAIL: TestX/y\n"},
		{"b--- SKIP: TestX\n    skipped\nPASS\n", "b", "SKIP", "    skipped\n"},
		{"--- PASS: TestX\nPASS\ntorn down\n", "PASS\ntorn down\n", "PASS", ""},
		{"--- PASS: TestXY\nbegun\n", "--- PASS: TestXY\nbegun\n", "", ""},
		{"", "", "", ""},
	} {
		printed, word, log := Split(c.out, "TestX")
		if printed != c.printed || word != c.word || log != c.log {
			t.Errorf("%q: %q, %q, %q", c.out, printed, word, log)
		}
	}
}

// The events are read as those of go test -json are: each test begins and ends once, its parts too.
func TestJSONHasTheEventsOfGoTest(t *testing.T) {
	var out bytes.Buffer
	j := &JSON{Out: &out, Now: func() time.Time { return time.Unix(0, 0) }}
	for _, p := range sample() {
		j.Package(p)
	}
	ends := map[string]string{}
	leaks := 0
	for d := json.NewDecoder(&out); ; {
		var e struct {
			Time                           time.Time
			Action, Package, Test, Verdict string
			Leaks                          []Goroutine
		}
		if err := d.Decode(&e); err == io.EOF {
			break
		} else if err != nil {
			t.Fatal(err)
		}
		leaks += len(e.Leaks)
		if e.Action == "pass" || e.Action == "fail" || e.Action == "skip" {
			ends[e.Package+" "+e.Test] += e.Action + e.Verdict
		}
	}
	for name, want := range map[string]string{
		"example.com/m/pool ":              "fail",
		"example.com/m/pool TestFine":      "passok",
		"example.com/m/pool TestFine/part": "pass",
		"example.com/m/pool TestSkipped":   "skipSKIP",
		"example.com/m/pool TestWrong":     "failFAIL",
		"example.com/m/pool TestLeaks":     "failLEAK",
		"example.com/m/pool TestLocks":     "failDEADLOCK",
		"example.com/m/pool TestRefused":   "skiprefused",
		"example.com/m/pool TestLong":      "failstopped",
		"example.com/m/none ":              "skip",
		"example.com/m/broken ":            "fail",
	} {
		if ends[name] != want {
			t.Errorf("%s: %q, want %q", name, ends[name], want)
		}
	}
	if leaks != 1 {
		t.Errorf("%d leaks", leaks)
	}
}

// What the schema of SARIF 2.1.0 requires is there, and what code hosts need: the rule, the place, and what tells a result
// from others.
func TestSARIFHasWhatItsSchemaRequires(t *testing.T) {
	var out bytes.Buffer
	if err := WriteSARIF(&out, sample()); err != nil {
		t.Fatal(err)
	}
	var log struct {
		Schema  string `json:"$schema"`
		Version string
		Runs    []struct {
			Tool struct {
				Driver struct {
					Name  string
					Rules []struct{ ID string }
				}
			}
			Results []struct {
				RuleID    string
				RuleIndex int
				Message   struct{ Text string }
				Locations []struct {
					PhysicalLocation struct {
						ArtifactLocation struct{ URI string }
						Region           struct{ StartLine, StartColumn int }
					}
				}
				RelatedLocations    []any
				PartialFingerprints map[string]string
			}
		}
	}
	if err := json.Unmarshal(out.Bytes(), &log); err != nil {
		t.Fatal(err)
	}
	if log.Version != "2.1.0" || !strings.HasSuffix(log.Schema, "sarif-2.1.0.json") || len(log.Runs) != 1 {
		t.Fatalf("%+v", log)
	}
	run := log.Runs[0]
	if run.Tool.Driver.Name != "golf-go" || len(run.Tool.Driver.Rules) != 1 || len(run.Results) != 1 {
		t.Fatalf("%+v", run)
	}
	r := run.Results[0]
	if r.RuleID != run.Tool.Driver.Rules[r.RuleIndex].ID || r.Message.Text == "" || len(r.PartialFingerprints) == 0 || len(r.RelatedLocations) != 2 {
		t.Errorf("%+v", r)
	}
	at := r.Locations[0].PhysicalLocation
	if at.ArtifactLocation.URI != "pool/pool.go" || at.Region.StartLine != 12 || at.Region.StartColumn != 3 {
		t.Errorf("%+v", at)
	}
}

// Without a leak the results are an empty list, which the schema takes for a run without a finding. null is none.
func TestSARIFWithoutALeakHasAnEmptyList(t *testing.T) {
	var out bytes.Buffer
	if err := WriteSARIF(&out, nil); err != nil || !strings.Contains(out.String(), `"results": []`) {
		t.Errorf("%v %s", err, out.String())
	}
}

func TestJUnitCountsTheTests(t *testing.T) {
	var out bytes.Buffer
	if err := WriteJUnit(&out, sample()); err != nil {
		t.Fatal(err)
	}
	var all struct {
		Suites []struct {
			Name     string `xml:"name,attr"`
			Tests    int    `xml:"tests,attr"`
			Failures int    `xml:"failures,attr"`
			Errors   int    `xml:"errors,attr"`
			Skipped  int    `xml:"skipped,attr"`
			Cases    []struct {
				Name    string `xml:"name,attr"`
				Failure *struct {
					Message string `xml:"message,attr"`
					Type    string `xml:"type,attr"`
					Text    string `xml:",chardata"`
				} `xml:"failure"`
			} `xml:"testcase"`
		} `xml:"testsuite"`
	}
	if err := xml.Unmarshal(out.Bytes(), &all); err != nil {
		t.Fatal(err)
	}
	if len(all.Suites) != 3 {
		t.Fatalf("%+v", all)
	}
	s := all.Suites[0]
	if s.Tests != 7 || s.Failures != 3 || s.Errors != 1 || s.Skipped != 2 || len(s.Cases) != 7 {
		t.Errorf("%+v", s)
	}
	f := s.Cases[3].Failure
	if f == nil || f.Type != "LEAK" || f.Message != "goroutine 5: chan send at pool/pool.go:12:3 in (*Pool).work" || !strings.Contains(f.Text, "shown again by") {
		t.Errorf("%+v", f)
	}
	if all.Suites[2].Skipped != 1 {
		t.Errorf("%+v", all.Suites[2])
	}
}

// A leak of the baseline is found again by what does not change with the lines.
func TestABaselineThatIsWrittenKnowsItsLeaks(t *testing.T) {
	packages := sample()
	var sb strings.Builder
	if err := WriteBaseline(&sb, packages); err != nil {
		t.Fatal(err)
	}
	const want = "pool/pool.go: chan send in (*Pool).work, started in New\n"
	if !strings.HasSuffix(sb.String(), "\n"+want) {
		t.Errorf("%q", sb.String())
	}
	b := ReadBaseline(sb.String() + "\n# a comment\nother.go: select in f, started in g\n")
	leak := packages[0].Tests[3].Goroutines[0]
	leak.At.Line++
	if !b.Has(&leak) {
		t.Error("the leak is not known")
	}
	leak.Wait = "chan receive"
	if b.Has(&leak) {
		t.Error("another leak is known")
	}
	packages[0].Tests[0].Known = packages[0].Tests[3].Goroutines
	if left := b.Unseen(packages); len(left) != 1 || left[0] != "other.go: select in f, started in g" {
		t.Errorf("%q", left)
	}
	if (*Baseline)(nil).Has(&leak) || (*Baseline)(nil).Unseen(packages) != nil {
		t.Error("a baseline that is not there knows leaks")
	}
}

func TestGoroutinesAtTheSamePlacesAreOne(t *testing.T) {
	at := Place{File: "a.go", Line: 1}
	other := Place{File: "a.go", Line: 2}
	list := Merge(nil, []Goroutine{
		{Number: 2, Wait: "select", At: at, Started: &at}, {Number: 3, Wait: "select", At: at, Started: &other},
		{Number: 4, Wait: "select", At: at, Started: &at}, {Number: 5, Wait: "chan send", At: at, Started: &at}, {Number: 6, Wait: "select", At: at},
	})
	if len(list) != 4 || list[0].More != 1 || list[1].More != 0 {
		t.Errorf("%+v", list)
	}
}
