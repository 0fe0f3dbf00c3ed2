package main

import (
	"os"
	"path/filepath"
	"testing"
)

// What a launcher has run once is started without it. Another program is started by its own path.
func TestWhatALauncherRuns(t *testing.T) {
	dir := t.TempDir()
	write := func(name, text string) string {
		path := filepath.Join(dir, name)
		if err := os.MkdirAll(filepath.Dir(path), 0o777); err != nil {
			t.Fatal(err)
		}
		if err := os.WriteFile(path, []byte(text), 0o777); err != nil {
			t.Fatal(err)
		}
		return path
	}
	launcher := write("golf", "#!/bin/sh\n")
	if err := os.Symlink("golf", filepath.Join(dir, "golf-explore")); err != nil {
		t.Fatal(err)
	}
	if got := behind(launcher, "golf"); got != "" {
		t.Errorf("without BUILD: %s", got)
	}
	write("release/BUILD", "golf-x86_64-linux md5 1\ngolf-explore-x86_64-linux md5 2\n")
	var l launched
	if got := l.of(launcher); got != launcher {
		t.Errorf("before the first run: %s", got)
	}
	l.note(launcher, "golf")
	if got, want := l.of(launcher), filepath.Join(dir, "release/golf-x86_64-linux"); got != want {
		t.Errorf("released: %s, want %s", got, want)
	}
	if got, want := behind(filepath.Join(dir, "golf-explore"), "golf-explore"), filepath.Join(dir, "release/golf-explore-x86_64-linux"); got != want {
		t.Errorf("by the link: %s, want %s", got, want)
	}
	write("out/BUILD", "golf md5 3\n")
	if got, want := behind(launcher, "golf"), filepath.Join(dir, "out/golf"); got != want {
		t.Errorf("built here: %s, want %s", got, want)
	}
	if got := behind(write("bin/golf", ""), "golf"); got != "" {
		t.Errorf("installed: %s", got)
	}
	if got := behind(write("other", ""), "golf"); got != "" {
		t.Errorf("another name: %s", got)
	}
}
