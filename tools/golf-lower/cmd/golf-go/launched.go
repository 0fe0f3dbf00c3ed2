package main

import (
	"os"
	"os/exec"
	"path/filepath"
	"strings"
	"sync"
)

// launched remembers the programs of golf that a launcher has run to the end of one run. The launcher looks at the sum of its
// program each time, which takes longer than many a run of a test. So the later runs start the program itself.
type launched struct {
	mu       sync.Mutex
	programs map[string]string // by the path of the launcher; "" for what is no launcher
}

// of is the program that a path stands for: itself, or what it has launched before.
func (l *launched) of(path string) string {
	l.mu.Lock()
	defer l.mu.Unlock()
	if p := l.programs[path]; p != "" {
		return p
	}
	return path
}

// note notes that a path has been run to its end.
func (l *launched) note(path, name string) {
	l.mu.Lock()
	defer l.mu.Unlock()
	if _, known := l.programs[path]; known {
		return
	}
	if l.programs == nil {
		l.programs = map[string]string{}
	}
	l.programs[path] = behind(path, name)
}

// behind is the program that the launcher at a path runs, "" if there is none at the path. It is that of out/ if its BUILD notes
// one, else the released one.
func behind(path, name string) string {
	found, err := exec.LookPath(path)
	if err != nil || filepath.Base(found) != name {
		return ""
	}
	real, err := filepath.EvalSymlinks(found)
	if err != nil {
		return ""
	}
	for _, at := range []struct{ folder, program string }{{"out", name}, {"release", name + "-x86_64-linux"}} {
		folder := filepath.Join(filepath.Dir(real), at.folder)
		build, err := os.ReadFile(filepath.Join(folder, "BUILD"))
		if err == nil && strings.Contains("\n"+string(build), "\n"+at.program+" md5 ") {
			return filepath.Join(folder, at.program)
		}
	}
	return ""
}

// tunables are those with which the launchers start the programs.
const tunables = "glibc.malloc.hugetlb=1:glibc.malloc.arena_max=1"

// tuned is the environment for the programs.
func tuned() []string {
	if os.Getenv("GLIBC_TUNABLES") != "" {
		return os.Environ()
	}
	return append(os.Environ(), "GLIBC_TUNABLES="+tunables)
}
