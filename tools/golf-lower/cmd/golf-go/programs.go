package main

import (
	"context"
	"fmt"
	"io"
	"os"
	"os/exec"
	"path/filepath"
	"strings"
	"syscall"
	"time"
)

// home is the folder of the executable, links resolved; "" if it is not known.
var home = folderOf(os.Executable())

func folderOf(path string, err error) string {
	if err != nil {
		return ""
	}
	if real, err := filepath.EvalSymlinks(path); err == nil {
		path = real
	}
	return filepath.Dir(path)
}

// program is the program that the variable names, or the one of that name beside the executable, or the one on the path.
func program(variable, name string) string {
	if p := os.Getenv(variable); p != "" {
		return p
	}
	if info, err := os.Stat(filepath.Join(home, name)); home != "" && err == nil && !info.IsDir() {
		return filepath.Join(home, name)
	}
	return name
}

// command is a program that ends when golf-go is ended.
func command(ctx context.Context, name string, args ...string) *exec.Cmd {
	cmd := exec.CommandContext(ctx, name, args...)
	cmd.Cancel = func() error { return cmd.Process.Signal(syscall.SIGTERM) }
	cmd.WaitDelay = time.Second
	return cmd
}

// startFault says why a program could not be started, and what to do if it is not there.
func startFault(variable, name string, err error) string {
	if os.Getenv(variable) == "" && strings.Contains(err.Error(), "not found") {
		return fmt.Sprintf("golf-go: there is no program %s beside golf-go or on the path: %s may name one", name, variable)
	}
	return "golf-go: " + err.Error()
}

// builds are the places of BUILD: where ./install puts it, and in a clone.
var builds = []string{"../lib/golf/BUILD", "../../../release/BUILD"}

// version writes the number of the release, and for each program its day, its toolchain and its sums.
func version(stdout, stderr io.Writer) int {
	for _, b := range builds {
		text, err := os.ReadFile(filepath.Join(home, b))
		if err != nil {
			continue
		}
		return put(versionOf(string(text)), stdout, stderr)
	}
	fmt.Fprintln(stderr, "golf-go: there is no file BUILD, which ./install puts into ../lib/golf beside it")
	return noRead
}

// versionOf is what a file BUILD says, in the words of golf-page --version.
func versionOf(build string) string {
	said := map[string]map[string]string{}
	var names []string
	for _, line := range strings.Split(strings.TrimSpace(build), "\n") {
		name, rest, _ := strings.Cut(line, " ")
		key, value, _ := strings.Cut(rest, " ")
		if said[name] == nil {
			said[name] = map[string]string{}
			if name != "release" {
				names = append(names, name)
			}
		}
		said[name][key] = value
	}
	var sb strings.Builder
	fmt.Fprintf(&sb, "golf-go %s\n", said["release"]["number"])
	for _, name := range names {
		fmt.Fprintf(&sb, "%s: %s, %s\n", name, said[name]["day"], said[name]["toolchain"])
		for _, key := range []string{"program", "sources"} {
			if value := said[name][key]; value != "" {
				fmt.Fprintf(&sb, "  %s %s\n", key, value)
			}
		}
	}
	return sb.String()
}
