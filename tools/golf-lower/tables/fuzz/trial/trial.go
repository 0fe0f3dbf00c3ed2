// Package trial compares what programs do by Go with what they do by golf-go. Go builds many of them as one.
package trial

import (
	"errors"
	"fmt"
	"go/version"
	"os"
	"os/exec"
	"path/filepath"
	"runtime"
	"strings"
	"sync"

	"golflower/tables/judge"
)

// Program is one program that is tried.
type Program struct {
	Seed    int64
	Text    string
	Verdict judge.Verdict

	name string // of its package in the program of all
	want judge.Shown
}

// Most is how many programs Go builds as one at most. Each has a name of four letters, as main has, so that texts with the
// name of a type have the same length.
const Most = 1000

// Batch has programs that are built as one.
type Batch struct {
	dir  string
	list []*Program
}

// Compare tries programs, some at the same time. Each gets its verdict.
func Compare(list []*Program, jobs int) error {
	dir, err := os.MkdirTemp("", "trial")
	if err != nil {
		return err
	}
	defer os.RemoveAll(dir)
	b := &Batch{dir: dir, list: list}
	if err := b.Build(); err != nil {
		return err
	}
	var wg sync.WaitGroup
	slots := make(chan struct{}, jobs)
	for _, p := range list {
		if p.Verdict.Kind == judge.Unbuilt {
			continue
		}
		slots <- struct{}{}
		wg.Add(1)
		go func() {
			defer wg.Done()
			b.try(p)
			<-slots
		}()
	}
	wg.Wait()
	return nil
}

// Build builds the programs by Go. Those that Go does not build get the verdict.
func (b *Batch) Build() error {
	if len(b.list) > Most {
		return fmt.Errorf("%d programs are more than %d", len(b.list), Most)
	}
	for i, p := range b.list {
		p.name = fmt.Sprintf("p%03d", i)
		p.Verdict = judge.Verdict{}
		if err := b.write(p); err != nil {
			return err
		}
	}
	for {
		said, err := b.build()
		if err == nil {
			return nil
		}
		if !b.blame(said) {
			return fmt.Errorf("go build: %v\n%s", err, said)
		}
	}
}

// write writes a program twice: as a package of the program of all, and as a program of its own.
func (b *Batch) write(p *Program) error {
	pkg := strings.Replace(p.Text, "package main\n", "package "+p.name+"\n", 1)
	pkg = strings.Replace(pkg, "\nfunc main() {", "\nfunc Main() {", 1)
	inAll, own := filepath.Join(b.dir, "all", p.name), filepath.Join(b.dir, "own", p.name)
	return errors.Join(
		os.MkdirAll(inAll, 0o777), os.MkdirAll(own, 0o777),
		os.WriteFile(filepath.Join(inAll, "p.go"), []byte(pkg), 0o666),
		os.WriteFile(filepath.Join(own, "p.go"), []byte(p.Text), 0o666),
	)
}

// build builds the programs that Go has not refused as one, which runs the one that its first word names.
func (b *Batch) build() (string, error) {
	var imports, cases strings.Builder
	for _, p := range b.list {
		if p.Verdict.Kind != judge.Unbuilt {
			fmt.Fprintf(&imports, "import %q\n", "tried/"+p.name)
			fmt.Fprintf(&cases, "\tcase %q:\n\t\t%s.Main()\n", p.name, p.name)
		}
	}
	main := "package main\n\nimport \"os\"\n" + imports.String() + "\nfunc main() {\n\tswitch os.Args[1] {\n" + cases.String() + "\t}\n}\n"
	all := filepath.Join(b.dir, "all")
	err := errors.Join(
		os.WriteFile(filepath.Join(all, "main.go"), []byte(main), 0o666),
		os.WriteFile(filepath.Join(all, "go.mod"), []byte("module tried\n\ngo "+languageVersion()+"\n"), 0o666),
	)
	if err != nil {
		return "", err
	}
	cmd := exec.Command("go", "build", "-trimpath", "-o", "tried", ".")
	cmd.Dir = all
	out, err := cmd.CombinedOutput()
	return string(out), err
}

// languageVersion is the version of the language of the Go that is installed, as a go.mod names it.
func languageVersion() string { return strings.TrimPrefix(version.Lang(runtime.Version()), "go") }

// blame gives the programs of which go build tells an error their verdict; false if there are none.
func (b *Batch) blame(said string) bool {
	found := false
	for _, p := range b.list {
		_, told, ok := strings.Cut(said, "# tried/"+p.name+"\n")
		if ok && p.Verdict.Kind != judge.Unbuilt {
			told, _, _ = strings.Cut(told, "\n# ")
			p.Verdict = judge.Verdict{Kind: judge.Unbuilt, Text: told}
			found = true
		}
	}
	return found
}

// Program is the command that runs a program by Go.
func (b *Batch) Program(p *Program) *exec.Cmd {
	return exec.Command(filepath.Join(b.dir, "all", "tried"), p.name)
}

// try runs a program by Go and by golf-go. One that differs is built alone, too: its output may show the name of its package
// in a form that asMain does not know, as in hexadecimal digits.
func (b *Batch) try(p *Program) {
	want, err := judge.Run(b.Program(p))
	if err != nil {
		p.Verdict = judge.Verdict{Kind: judge.Unbuilt, Text: err.Error()}
		return
	}
	asMain := strings.NewReplacer("tried/"+p.name+".", "main.", p.name+".", "main.").Replace // in full where a type has arguments
	p.want = judge.Shown{Out: asMain(want.Out), Errs: asMain(want.Errs), End: asMain(want.End)}
	own := filepath.Join(b.dir, "own", p.name)
	p.Verdict = judge.ByGolf(p.want, own, "p.go")
	if p.Verdict.Kind != judge.Different {
		return
	}
	if alone, err := judge.RunAlone(own, "p.go"); err == nil && alone != p.want {
		p.want = alone
		p.Verdict = judge.ByGolf(p.want, own, "p.go")
	}
}
