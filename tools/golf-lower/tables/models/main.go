// Command models writes the table of the models: which declarations of the standard library are not Go's own, and why.
//
//	go run ./tables/models > tables/models.md
package main

import (
	"fmt"
	"io"
	"os"
	"strings"

	"golflower/load"
)

func main() {
	list, err := load.Models()
	if err != nil {
		fmt.Fprintln(os.Stderr, err)
		os.Exit(6)
	}
	write(os.Stdout, list)
}

// write writes the table.
func write(w io.Writer, list []load.Model) {
	fmt.Fprint(w, "# The models of the standard library\n\n"+
		"`go run ./tables/models` writes this table from `load/_std`. What a package declares beside its models is Go's own,\n"+
		"from the sources in GOROOT, unless the package is a model alone.\n\n"+
		"| package | alone | why | what the models declare |\n|---|---|---|---|\n")
	for _, m := range list {
		alone := ""
		if m.Only {
			alone = "yes"
		}
		fmt.Fprintf(w, "| `%s` | %s | %s | %s |\n", m.Package, alone, m.Why, strings.Join(exported(m), ", "))
	}
}

// exported are the exported declarations of a package with models, and the number of the others.
func exported(m load.Model) []string {
	var names []string
	others := 0
	for _, name := range m.Declares {
		typ, method, isMethod := strings.Cut(name, ".")
		if !isUpper(typ) || isMethod && !isUpper(method) {
			others++
			continue
		}
		names = append(names, "`"+name+"`")
	}
	if others > 0 {
		names = append(names, fmt.Sprintf("%d more that are not exported", others))
	}
	return names
}

func isUpper(s string) bool { return s != "" && 'A' <= s[0] && s[0] <= 'Z' }
