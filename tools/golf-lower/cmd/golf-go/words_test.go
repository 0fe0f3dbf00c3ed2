package main

import (
	"bytes"
	"errors"
	"os"
	"os/exec"
	"path/filepath"
	"strconv"
	"strings"
	"syscall"
	"testing"
	"time"
)

// said is what golf-go writes for a command line, and its status.
func said(t *testing.T, line string) (out, errs string, status int) {
	t.Helper()
	var o, e bytes.Buffer
	status = run(t.Context(), strings.Fields(line), &o, &e)
	return o.String(), e.String(), status
}

// Each word of the family tells its own words. The option --help may stand anywhere.
func TestHelpIsOnStandardOutput(t *testing.T) {
	for line, parts := range map[string][]string{
		"--help":                 {"golf-go FILE.go ..", "golf-go run PACKAGE", "golf-go --version", "--late", "--threads N"},
		"a.go --help":            {"golf-go FILE.go ..", "--late"},
		"run --help":             {"usage: golf-go run PACKAGE", "--turns N", "--clock loose"},
		"explore --help":         {"usage: golf-go explore PACKAGE", "--states N"},
		"search ./cmd --help":    {"usage: golf-go search PACKAGE", "--preemptions K", "--seconds S", "--for A"},
		"page --help --evry 2":   {"usage: golf-go page PACKAGE", "> PAGE", "--schedule S"},
		"check --help":           {"usage: golf-go check PACKAGES"},
		"check ./... --x --help": {"usage: golf-go check PACKAGES"},
	} {
		out, errs, status := said(t, line)
		if errs != "" || status != 0 {
			t.Errorf("%s: status %d, %s", line, status, errs)
		}
		for _, part := range parts {
			if !strings.Contains(out, part) {
				t.Errorf("%s: the text lacks %q", line, part)
			}
		}
		for _, l := range strings.Split(out, "\n") {
			if len(l) > 120 {
				t.Errorf("%s: a line of %d columns: %s", line, len(l), l)
			}
		}
	}
}

// The words are those of docs/USAGE.md: golf and golf-explore have no others.
func TestHelpHasTheOptionsOfGolf(t *testing.T) {
	for mode, o := range optionsOf {
		text := help(mode)
		for name := range o.options {
			if !strings.Contains(text, "    "+name+" ") {
				t.Errorf("the help of %q lacks %s", mode, name)
			}
		}
	}
}

func TestAUsageErrorNamesTheWord(t *testing.T) {
	const clean = "../../testdata/reports/clean.go"
	for line, want := range map[string]string{
		"":                               "no file and no package is named",
		"run":                            "no file and no package is named",
		"--late":                         "no file and no package is named",
		"frobnicate":                     "no word of golf-go, no file and no folder: frobnicate",
		"Run " + clean:                   "no word of golf-go, no file and no folder: Run",
		"--version " + clean:             "no file and no package is named",
		clean + " --clock":               "no value after --clock",
		clean + " --clock=fast":          "--clock fast: the clocks are strict, which is the default, and loose",
		"check ./... --why":              "no word of golf-go check: --why",
		clean + " --evry 5":              "no word of golf run: --evry",
		clean + " more":                  "no word of golf run: more",
		clean + " --late=1":              "no word of golf run: --late=1",
		clean + " --every":               "no value after --every",
		clean + " --every 0":             "no value of --every: 0",
		clean + " --every=+5":            "no value of --every: +5",
		clean + " --schedule no":         "no value of --schedule: no",
		clean + " --why --why":           "twice: --why",
		clean + " --threads 2 --every 5": "not beside --threads: --every",
		clean + " --schedule choices:0" + strings.Repeat(",0", 4096): "a schedule of choices has at most 4096 numbers",
		"explore " + clean + " --for leak":                           "no word of golf-explore all: --for",
		"explore " + clean + " --states 0":                           "no value of --states: 0",
		"search " + clean + " --for luck":                            "no value of --for: luck",
		"search " + clean + " --seconds=0":                           "no value of --seconds: 0",
		"search " + clean + " --preemptions":                         "no value after --preemptions",
	} {
		if strings.HasPrefix(want, "no") && strings.Contains(line, clean) || strings.Contains(line, "threads") {
			explorers(t)
		}
		out, errs, status := said(t, line)
		if !strings.HasPrefix(errs, "golf-go: "+want+" (golf-go ") || strings.Count(errs, "\n") > 2 || out != "" || status != 5 {
			t.Errorf("%.60s: status %d, %s%s", line, status, out, errs)
		}
	}
}

// The version is that of golf-page, which reads the same file.
func TestVersionSaysWhatGolfPageSays(t *testing.T) {
	build, err := os.ReadFile("../../../../release/BUILD")
	if err != nil {
		t.Fatal(err)
	}
	page, err := exec.Command("python3", "-B", "../../../golf-page/page.py", "--version").Output()
	if errors.Is(err, exec.ErrNotFound) {
		t.Skip("golf-page needs Python")
	}
	want := strings.Replace(string(page), "golf-page", "golf-go", 1)
	if got := versionOf(string(build)); err != nil || got != want {
		t.Errorf("%v\n%s\nwant\n%s", err, got, want)
	}
}

func TestALimitSaysWhatToDo(t *testing.T) {
	explorers(t)
	const clean = "../../testdata/reports/clean.go"
	for line, want := range map[string]string{
		clean + " --turns 3":                                "golf-go: more turns are given by --turns N, up to 10000000\n",
		"../../testdata/reports/loop.go":                    "golf-go: a run has at most 10000000 turns: it needs fewer rounds, or smaller data\n",
		"../../testdata/reports/loop.go --threads 2":        "golf-go: a run by threads has at most 100000 turns: without --threads there are more\n",
		"explore " + clean + " --states 10":                 "golf-go: more states are kept by --states N, up to 1000000; ",
		"search " + clean + " --preemptions 0":              "golf-go: nothing is claimed: more schedules are tried by --preemptions K, ",
		"search ../../testdata/reports/loop.go --seconds 1": "golf-go: more seconds are given by --seconds S, ",
		"explore ../../testdata/reports/late.go":            "golf-go: golf-go search may find a leak with fewer turns, and so may fewer rounds\n",
	} {
		if _, errs, _ := said(t, line); !strings.Contains(errs, want) {
			t.Errorf("%s: %s", line, errs)
		}
	}
}

// installed is golf-go in a folder bin, with the programs beside it, as ./install puts them.
func installed(t *testing.T) string {
	t.Helper()
	explorers(t)
	bin := filepath.Join(t.TempDir(), "bin")
	if said, err := exec.Command("go", "build", "-o", filepath.Join(bin, "golf-go"), ".").CombinedOutput(); err != nil {
		t.Fatalf("%v\n%s", err, said)
	}
	for variable, name := range map[string]string{"GOLF": "golf", "GOLF_EXPLORE": "golf-explore"} {
		if err := os.Symlink(os.Getenv(variable), filepath.Join(bin, name)); err != nil {
			t.Fatal(err)
		}
	}
	return bin
}

// The programs are found beside the executable, also through a link and without an environment. A variable comes first.
func TestProgramsAreFoundBesideTheExecutable(t *testing.T) {
	bin := installed(t)
	link := filepath.Join(t.TempDir(), "other")
	if err := os.Symlink(filepath.Join(bin, "golf-go"), link); err != nil {
		t.Fatal(err)
	}
	for _, c := range []struct {
		name, words string
		env         []string
		status      int
		errs        string
	}{
		{link, "../../testdata/reports/explicit.go", nil, 1, "goroutine 3: chan send at explicit.go:9:2 in send"},
		{link, "explore ../../testdata/reports/clean.go", nil, 0, "at most 100000 states"},
		{link, "../../testdata/asleep/locked_twice.go", nil, 2, "locked by itself"},
		{link, "../../testdata/reports/clean.go", []string{"GOLF=/nowhere/golf"}, 6, "/nowhere/golf"},
	} {
		cmd := exec.Command(c.name, strings.Fields(c.words)...)
		cmd.Env = append([]string{}, c.env...)
		var errs bytes.Buffer
		cmd.Stderr = &errs
		cmd.Run() // its status is looked at
		if got := cmd.ProcessState.ExitCode(); got != c.status || !strings.Contains(errs.String(), c.errs) {
			t.Errorf("%s: status %d, %s", c.words, got, errs.String())
		}
	}
	if err := os.Remove(filepath.Join(bin, "golf")); err != nil {
		t.Fatal(err)
	}
	cmd := exec.Command(link, "../../testdata/reports/clean.go")
	cmd.Env = []string{"PATH=/nowhere"}
	said, _ := cmd.CombinedOutput() // its status is looked at
	const want = "golf-go: there is no program golf beside golf-go or on the path: GOLF may name one\n"
	if string(said) != want || cmd.ProcessState.ExitCode() != 6 {
		t.Errorf("status %d, %s", cmd.ProcessState.ExitCode(), said)
	}
}

// What a program says is written while it runs, and it ends when golf-go is ended.
func TestASignalEndsTheProgramThatIsRun(t *testing.T) {
	bin := installed(t)
	for _, c := range []struct {
		words  string
		first  string
		signal syscall.Signal
	}{
		{"explore ../../testdata/reports/loop.go --states 1000000", "at most 1000000 states, about 5001 MB of memory\n", syscall.SIGTERM},
		{"search ../../testdata/reports/loop.go --states 1000000", "at most 1000000 states, about 5001 MB of memory\n", syscall.SIGINT},
		{"../../testdata/reports/loop.go", "begun\n", syscall.SIGTERM},
		{"../../testdata/reports/loop.go", "begun\n", syscall.SIGHUP},
	} {
		t.Run(c.words, func(t *testing.T) {
			child := filepath.Join(t.TempDir(), "child")
			cmd := exec.Command(filepath.Join(bin, "golf-go"), strings.Fields(c.words)...)
			cmd.Env = append(os.Environ(), "GOLF="+noting(t, "GOLF", child), "GOLF_EXPLORE="+noting(t, "GOLF_EXPLORE", child))
			reader, writer, err := os.Pipe()
			if err != nil {
				t.Fatal(err)
			}
			cmd.Stdout, cmd.Stderr = writer, writer
			if err := cmd.Start(); err != nil {
				t.Fatal(err)
			}
			writer.Close()
			got := make([]byte, len(c.first))
			if n, _ := reader.Read(got); string(got[:n]) != c.first {
				t.Errorf("first %q", got[:n])
			}
			cmd.Process.Signal(c.signal)
			cmd.Wait() // its status is looked at
			if status := cmd.ProcessState.ExitCode(); status != 6 {
				t.Errorf("status %d", status)
			}
			if pid := idIn(t, child); syscall.Kill(pid, 0) == nil {
				t.Error("the program goes on")
				syscall.Kill(pid, syscall.SIGKILL)
			}
		})
	}
}

// noting is a program that notes its process in a file, and then is the program that the variable names.
func noting(t *testing.T, variable, file string) string {
	t.Helper()
	name := filepath.Join(t.TempDir(), strings.ToLower(variable))
	text := "#!/bin/sh\necho $$ > '" + file + "'\nexec '" + os.Getenv(variable) + "' \"$@\"\n"
	if err := os.WriteFile(name, []byte(text), 0o755); err != nil {
		t.Fatal(err)
	}
	return name
}

// idIn is the process that a file names. One that has just ended may be there for a moment.
func idIn(t *testing.T, file string) int {
	t.Helper()
	text, err := os.ReadFile(file)
	pid, wrong := strconv.Atoi(strings.TrimSpace(string(text)))
	if err != nil || wrong != nil {
		t.Fatal(err, wrong)
	}
	for range 20 {
		if syscall.Kill(pid, 0) != nil {
			break
		}
		time.Sleep(50 * time.Millisecond)
	}
	return pid
}
