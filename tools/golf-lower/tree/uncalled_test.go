package tree

import (
	"strings"
	"testing"
)

// What main and the global variables do not lead to is dropped, with the imports that only that needs.
func TestDropUncalled(t *testing.T) {
	f := parse(t, `package main

import "fmt"
import "sync"

type used struct {
	next *inner
}
type inner struct {
	n int
}
type unused struct {
	m *sync.Mutex
}

var global *used

func main() {
	called()
	global = nil
}
func called() {
	fmt.Println(1)
	if false {
		main()
	}
}
func alone() {
	other()
}
func other() {
	alone()
}
`)
	f.DropUncalled()
	text := printed(f)
	for _, name := range []string{"main() {", "called() {", "type used struct", "type inner struct", "var global", `import "fmt"`} {
		if !strings.Contains(text, name) {
			t.Errorf("%s is dropped:\n%s", name, text)
		}
	}
	for _, name := range []string{"alone", "other", "unused", "sync"} {
		if strings.Contains(text, name) {
			t.Errorf("%s is kept:\n%s", name, text)
		}
	}
}
