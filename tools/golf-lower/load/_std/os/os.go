// Package os: output and the end of the program; there are no words, no variables and no files.
package os

import "errors"

// These are lowered where they are called.
func write(s string)
func writeErr(s string)
func exit(code int)

var (
	ErrInvalid          = errors.New("invalid argument")
	ErrPermission       = errors.New("permission denied")
	ErrExist            = errors.New("file already exists")
	ErrNotExist         = errors.New("file does not exist")
	ErrClosed           = errors.New("file already closed")
	ErrDeadlineExceeded = errors.New("i/o timeout")
)

type File struct{ n int }

func (f *File) Write(p []byte) (int, error) { return f.WriteString(string(p)) }

func (f *File) WriteString(s string) (int, error) {
	if f.n == 1 {
		write(s)
	} else {
		writeErr(s)
	}
	return len(s), nil
}

func (f *File) Close() error { return nil }

var Stdout = &File{1}
var Stderr = &File{2}

// Exit is lowered where it is called as a statement.
func Exit(code int) { exit(code) }

// Args has the name of the program alone: golf gives no words to it.
var Args = []string{"program"}

func Getpid() int               { return 1 }
func Hostname() (string, error) { return "golf", nil }
