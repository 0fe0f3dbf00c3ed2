package main

import (
	"bytes"
	"errors"
	"fmt"
	"os"
	"strconv"
	"strings"
)

type e1 struct{ s string }

func (e e1) Error() string   { return "e1 " + e.s }
func (e e1) Is(t error) bool { return t == errBase }

var errBase = errors.New("base")

type multi []error

func (m multi) Error() string   { return fmt.Sprint(len(m), " errors") }
func (m multi) Unwrap() []error { return m }

type level int

const (
	low level = iota + 1
	mid
	_
	high
)

func (l level) String() string { return [...]string{"?", "low", "mid", "??", "high"}[l] }

type rec struct {
	Name  string
	Tags  []string
	Next  *rec
	level level
	Lv    level
	M     map[string]any
	F     func()
	Err   error
	any
}

func main() {
	e := fmt.Errorf("ctx: %w", e1{"x"})
	var t e1
	fmt.Println(e, errors.Is(e, errBase), errors.As(e, &t), t.s, errors.Unwrap(e) == e1{"x"})
	m := multi{errBase, fmt.Errorf("a %w b %v", e, errBase)}
	fmt.Println(m, errors.Is(m, errBase), errors.As(m[1:], &t))
	j := errors.Join(errBase, nil, e)
	fmt.Printf("%v|%q\n", j, j.Error())
	fmt.Println(low, mid, high, []level{low, high}, map[level]int{mid: 1})
	r := rec{Name: "n", Tags: []string{"a", "b c"}, level: mid, Lv: high, M: map[string]any{"k": 1, "a": nil, "z": []int{1}}, Err: e1{"q"}}
	fmt.Printf("%v\n%+v\n", r, r)
	fmt.Printf("%v %+v %s %d\n", []any{1, "a", nil, low, e1{"z"}, []byte("hi"), [2]bool{true}}, struct {
		A any
		b *int
	}{mid, nil}, []string{"x", "y"}, []int8{1, -2})
	fmt.Printf("%s %v %x %X %q\n", []byte("hi"), []byte("hi"), []byte("hi"), "hi", []string{"a", "b\n"})
	fmt.Printf("%t %v %5t\n", true, false, true)
	fmt.Printf("%d%%|%5d|%-5d|%05d|%+d|% d|%x|%08.3f|%+v|%T|%T|%T\n", 5, 42, 42, 42, 42, 42, -255, 3.14159, low, low, r.M, e)
	fmt.Print("a", "b", 1, 2, true, "c", 1.5, nil, '\n', "\n")
	fmt.Println(strings.Split("a,b,,c", ","), strings.Fields(" a  b "), strings.Title("ab cd"), strings.TrimLeft("xxabc", "x"), strings.Index("chicken", "ken"))
	fmt.Println(strings.Map(func(r rune) rune {
		if r == 'a' {
			return -1
		}
		return r + 1
	}, "banana"), strings.EqualFold("Go", "GO"), strings.Replace("oink oink", "k", "ky", 1), strings.ToUpper("éa"), strings.TrimFunc("123abc", func(r rune) bool { return r < 'a' }))
	n, err := strconv.Atoi("12a")
	fmt.Println(n, err)
	fmt.Println(strconv.ParseInt("-80", 16, 8))
	fmt.Println(strconv.ParseFloat("1e400", 64))
	fmt.Println(strconv.Quote("a\tb\x00é\u2028"), strconv.FormatInt(-255, 2), strconv.AppendBool([]byte("x"), true), strconv.Itoa(-0))
	var b bytes.Buffer
	fmt.Fprintf(&b, "%d-%s", 1, "x")
	b.WriteByte('!')
	b.WriteString(" é")
	fmt.Println(b.String(), b.Len(), bytes.Contains(b.Bytes(), []byte("x!")))
	var sb strings.Builder
	for i := range 3 {
		fmt.Fprint(&sb, i, ",")
	}
	fmt.Fprintln(os.Stdout, sb.String(), sb.Len())
	rd := strings.NewReader("line one\nline two")
	var w1, w2 string
	fmt.Fprintln(os.Stderr, "to stderr")
	buf := make([]byte, 4)
	k, _ := rd.Read(buf)
	fmt.Println(k, string(buf), w1+w2)
	before, after, ok := strings.Cut("k=v=w", "=")
	fmt.Println(before, after, ok)
	rp := strings.NewReplacer("a", "1", "b", "2")
	fmt.Println(rp.Replace("abc"), strings.Compare("a", "b"), strings.Count("cheese", "e"), strings.LastIndex("go gopher", "go"), strings.SplitN("a,b,c", ",", 2))
}
