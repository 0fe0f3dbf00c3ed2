package program

import (
	"go/ast"
	"go/importer"
	"go/parser"
	"go/token"
	"go/types"
	"testing"
)

// Each program is well-typed Go, and a seed gives the same one each time.
func TestProgramsAreGo(t *testing.T) {
	fset := token.NewFileSet()
	from := importer.Default()
	for seed := range int64(200) {
		text := Make(seed)
		if text != Make(seed) {
			t.Fatalf("seed %d: two programs", seed)
		}
		file, err := parser.ParseFile(fset, "p.go", text, 0)
		if err != nil {
			t.Fatalf("seed %d: %v", seed, err)
		}
		if _, err := (&types.Config{Importer: from}).Check("main", fset, []*ast.File{file}, nil); err != nil {
			t.Errorf("seed %d: %v", seed, err)
		}
	}
}
