package golflower_test

import (
	"fmt"
	"os"
	"os/exec"
	"path/filepath"
	"strings"
	"testing"
)

// intKeys and textKeys fill a map with N keys and read them.
const (
	intKeys = `package main

func main() {
	m := map[int]int{}
	for i := 0; i < N; i++ {
		m[i*7919] = i
	}
	s := 0
	for i := 0; i < N; i++ {
		s += m[i*7919]
	}
	println(s)
}
`
	textKeys = `package main

import "fmt"

func main() {
	var keys []string
	for i := 0; i < N; i++ {
		keys = append(keys, fmt.Sprintf("key%07d", i))
	}
	m := map[string]int{}
	for i, k := range keys {
		m[k] = i
	}
	s := 0
	for _, k := range keys {
		s += m[k]
	}
	fmt.Println(s)
}
`
)

// Each program ends within its turns, so that a map operation does not cost more with more keys.
func TestMapsCostTheSameForEachKey(t *testing.T) {
	golf := os.Getenv("GOLF")
	if golf == "" {
		t.Skip("GOLF does not name the program golf")
	}
	for _, c := range []struct {
		name, text string
		keys       int
		turns      string
	}{
		{"int", intKeys, 1000, "300000"},
		{"int", intKeys, 2000, "600000"},
		{"string", textKeys, 1000, "2800000"},
		{"string", textKeys, 2000, "5600000"},
	} {
		t.Run(fmt.Sprint(c.name, c.keys), func(t *testing.T) {
			file := filepath.Join(t.TempDir(), "keys.go")
			text := strings.ReplaceAll(c.text, "N", fmt.Sprint(c.keys))
			if err := os.WriteFile(file, []byte(text), 0o666); err != nil {
				t.Fatal(err)
			}
			low, _ := lowered(t, file)
			cmd := exec.Command(golf, "run", "--turns", c.turns)
			cmd.Stdin = strings.NewReader(low.Text)
			if out, err := cmd.CombinedOutput(); err != nil {
				t.Errorf("%v: %.200s", err, out)
			}
		})
	}
}
