// Package runtime: what a program may ask; the machine is golf.
package runtime

func GC()

// Gosched gives the others some turns; it promises nothing, as in Go.
func Gosched() {
	for i := 0; i < 40; i++ {
	}
}

func GOMAXPROCS(n int) int { return 1 }

func NumCPU() int { return 1 }

func KeepAlive(x any) {}

const GOOS = "linux"
const GOARCH = "amd64"
const Compiler = "gc"

type Error interface {
	error
	RuntimeError()
}

// failure is an error of the run time.
func failure(text string) any { return &fault{text} }

// nilPanic is what recover gives for a panic with nil.
func nilPanic() any { return &PanicNilError{} }

type PanicNilError struct{ _ int }

func (*PanicNilError) Error() string { return panicNil() }

// panicNil is the text of the Go that is installed; it is lowered where it is called.
func panicNil() string

func (*PanicNilError) RuntimeError() {}

type fault struct{ text string }

func (f *fault) Error() string { return f.text }
func (f *fault) RuntimeError() {}

// conversion is the error of a type assertion.
func conversion(text string) any { return &TypeAssertionError{text} }

type TypeAssertionError struct{ text string }

func (e *TypeAssertionError) Error() string { return e.text }
func (*TypeAssertionError) RuntimeError()   {}

func Goexit()
