package verdict

import (
	"encoding/xml"
	"io"
	"strings"
	"time"
)

// The elements of JUnit's XML that are written: a suite is a package.
type (
	junitSuites struct {
		XMLName xml.Name     `xml:"testsuites"`
		Suites  []junitSuite `xml:"testsuite"`
	}
	junitSuite struct {
		Name     string      `xml:"name,attr"`
		Tests    int         `xml:"tests,attr"`
		Failures int         `xml:"failures,attr"`
		Errors   int         `xml:"errors,attr"`
		Skipped  int         `xml:"skipped,attr"`
		Time     string      `xml:"time,attr"`
		Cases    []junitCase `xml:"testcase"`
	}
	junitCase struct {
		Class   string      `xml:"classname,attr"`
		Name    string      `xml:"name,attr"`
		Time    string      `xml:"time,attr"`
		Failure *junitFault `xml:"failure"`
		Error   *junitFault `xml:"error"`
		Skipped *junitFault `xml:"skipped"`
		Out     string      `xml:"system-out,omitempty"`
	}
	junitFault struct {
		Message string `xml:"message,attr"`
		Type    string `xml:"type,attr"`
		Text    string `xml:",chardata"`
	}
)

// WriteJUnit writes the packages as JUnit's XML. A leak is a failure, a test that was stopped an error, and one that is refused
// is skipped.
func WriteJUnit(to io.Writer, packages []*Package) error {
	var all junitSuites
	for _, p := range packages {
		all.Suites = append(all.Suites, suiteOf(p))
	}
	if _, err := io.WriteString(to, xml.Header); err != nil {
		return err
	}
	e := xml.NewEncoder(to)
	e.Indent("", "  ")
	if err := e.Encode(all); err != nil {
		return err
	}
	_, err := io.WriteString(to, "\n")
	return err
}

// suiteOf is the suite of a package. One that cannot be loaded has a case of its own.
func suiteOf(p *Package) junitSuite {
	s := junitSuite{Name: p.Path, Time: seconds(p.Elapsed)}
	if p.Refused != "" {
		fault := &junitFault{Message: firstLine(p.Refused), Type: Refused.String(), Text: p.Refused}
		s.add(junitCase{Class: p.Path, Name: "package", Time: seconds(time.Duration(0)), Skipped: fault})
	}
	for _, t := range p.Tests {
		s.add(caseOf(p, t))
	}
	return s
}

// caseOf is the case of a test.
func caseOf(p *Package, t *Test) junitCase {
	c := junitCase{Class: p.Path, Name: t.Name, Time: seconds(t.Elapsed), Out: t.Printed + t.Log}
	text := strings.Join(t.told(false), "\n")
	fault := &junitFault{Message: t.message(), Type: t.Kind.String(), Text: text}
	switch t.Kind {
	case Fail, Leak, Deadlock:
		c.Failure = fault
	case Stopped:
		c.Error = fault
	case Refused, Skip:
		c.Skipped = fault
	}
	return c
}

// message is what is told of a test in one line.
func (t *Test) message() string {
	switch {
	case len(t.Goroutines) > 0:
		return t.Goroutines[0].lines()[0]
	case len(t.Reasons) > 0:
		return firstLine(t.Reasons[0])
	}
	return heads[t.Kind]
}

func (s *junitSuite) add(c junitCase) {
	s.Cases = append(s.Cases, c)
	s.Tests++
	switch {
	case c.Failure != nil:
		s.Failures++
	case c.Error != nil:
		s.Errors++
	case c.Skipped != nil:
		s.Skipped++
	}
}

func firstLine(s string) string {
	s, _, _ = strings.Cut(s, "\n")
	return s
}
