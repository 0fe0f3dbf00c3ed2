package golf

import (
	"fmt"
	"sync"
)

// Lit is the text of a constant: a string of the subset.
type Lit string

// Text is a string that is made at run time: a constant, a number, bytes, or two strings one after the other. A nil
// Text is the empty string. A Text is never changed, except that its bytes are kept once somebody has asked for them.
type Text struct {
	kind        int
	n           int // the length in bytes
	lit         Lit
	num         int
	bytes       []byte
	left, right *Text
	hash        int // 0 if nobody has asked for it
}

// octet is a byte in an array that is read without a look at a slice.
type octet int

// array is the array of some bytes, and offset where they begin in it; both are lowered where they are called.
func array(b []byte) []octet
func offset(b []byte) int

// Hash is the hash of a string.
func Hash(t *Text) int {
	if t == nil {
		return 0
	}
	if t.hash == 0 {
		h := 7
		for _, c := range Bytes(t) {
			h = h*31 + int(c)
		}
		t.hash = h * 2654435761 / 65536 // so that texts which differ in the last bytes are apart
	}
	return t.hash
}

const (
	isLit = iota
	isNum
	isBytes
	isPair
)

// litBytes has the bytes of each constant of the program; it is written with the program.
func litBytes(l Lit) []byte

// Const is the string of a constant with n bytes.
func Const(l Lit, n int) *Text {
	return &Text{lit: l, n: n}
}

// OfBytes is the string of some bytes that nobody changes.
func OfBytes(b []byte) *Text {
	if len(b) == 0 {
		return nil
	}
	return &Text{kind: isBytes, n: len(b), bytes: b}
}

// Itoa is a number in decimal.
func Itoa(x int) *Text {
	n := 1
	if x < 0 {
		n = 2
	}
	for y := x / 10; y != 0; y = y / 10 {
		n++
	}
	return &Text{kind: isNum, n: n, num: x}
}

// Utoa is an unsigned number in decimal.
func Utoa(x int) *Text {
	if x >= 0 {
		return Itoa(x)
	}
	return Join(Itoa(UDiv(x, 10)), Itoa(URem(x, 10)))
}

// Bool is a truth value as a string.
func Bool(b bool) *Text {
	if b {
		return Const("true", 4)
	}
	return Const("false", 5)
}

func Len(t *Text) int {
	if t == nil {
		return 0
	}
	return t.n
}

// Join is a + b.
func Join(a, b *Text) *Text {
	if a == nil || a.n == 0 {
		return b
	}
	if b == nil || b.n == 0 {
		return a
	}
	return &Text{kind: isPair, n: a.n + b.n, left: a, right: b}
}

// Concat joins several strings.
func Concat(list ...*Text) *Text {
	var r *Text
	for _, t := range list {
		r = Join(r, t)
	}
	return r
}

// todo is a list of parts that are still to be visited.
type todo struct {
	t    *Text
	next *todo
}

// Bytes has the bytes of a string; nobody changes them.
func Bytes(t *Text) []byte {
	if t == nil {
		return nil
	}
	if t.bytes != nil {
		return t.bytes
	}
	b := make([]byte, t.n)
	to := array(b)
	at := 0
	for l := (&todo{t: t}); l != nil; {
		x := l.t
		l = l.next
		if x.kind == isPair && x.bytes == nil {
			l = &todo{x.left, &todo{x.right, l}}
			continue
		}
		from := leaf(x)
		part, first := array(from), offset(from)
		for i := 0; i < x.n; i++ {
			to[at+i] = part[first+i]
		}
		at += x.n
	}
	t.bytes = b
	return b
}

// leaf has the bytes of a part.
func leaf(t *Text) []byte {
	if t.bytes == nil {
		if t.kind == isNum {
			t.bytes = digits(t.num, t.n)
		} else {
			t.bytes = litBytes(t.lit)
		}
	}
	return t.bytes
}

// digits has the n characters of a number in decimal.
func digits(x int, n int) []byte {
	b := make([]byte, n)
	neg := x < 0
	for i := n - 1; i >= 0; i-- {
		d := x % 10
		if d < 0 {
			d = -d
		}
		b[i] = byte(48 + d)
		x = x / 10
	}
	if neg {
		b[0] = 45
	}
	return b
}

func Equal(a, b *Text) bool {
	if a == b {
		return true
	}
	if Len(a) != Len(b) {
		return false
	}
	if Len(a) == 0 {
		return true
	}
	if a.hash != b.hash && a.hash != 0 && b.hash != 0 {
		return false
	}
	if a.kind == isLit && b.kind == isLit {
		return a.lit == b.lit
	}
	return Compare(a, b) == 0
}

// Compare is -1 if a is before b, 1 if it is behind, and 0 if they are equal.
func Compare(a, b *Text) int {
	x, y := Bytes(a), Bytes(b)
	xs, ys := array(x), array(y)
	i, j := offset(x), offset(y)
	n := Len(a)
	if Len(b) < n {
		n = Len(b)
	}
	for k := 0; k < n; k++ {
		if xs[i+k] != ys[j+k] {
			if xs[i+k] < ys[j+k] {
				return -1
			}
			return 1
		}
	}
	if Len(a) < Len(b) {
		return -1
	}
	if Len(a) > Len(b) {
		return 1
	}
	return 0
}

// Part is t[lo:hi]; hi is -1 for the end.
func Part(t *Text, lo int, hi int) *Text {
	n := Len(t)
	if hi == -1 {
		hi = n
	}
	if hi < 0 || hi > n || lo < 0 || lo > hi {
		panic("runtime error: slice bounds out of range")
	}
	if lo == 0 && hi == n {
		return t
	}
	return OfBytes(Bytes(t)[lo:hi])
}

// Copy has the bytes of a string in a slice of its own.
func Copy(t *Text) []byte {
	r := make([]byte, Len(t))
	b := Bytes(t)
	for i := 0; i < Len(t); i++ {
		r[i] = b[i]
	}
	return r
}

// OfSlice is string(b).
func OfSlice(b []byte) *Text {
	r := make([]byte, len(b))
	for i := 0; i < len(b); i++ {
		r[i] = b[i]
	}
	return OfBytes(r)
}

// OfRune is string(r).
func OfRune(r int) *Text {
	if r < 0 || r > 1114111 || r >= 55296 && r < 57344 {
		r = 65533
	}
	if r < 128 {
		return OfBytes([]byte{byte(r)})
	}
	if r < 2048 {
		return OfBytes([]byte{byte(192 + r/64), byte(128 + r%64)})
	}
	if r < 65536 {
		return OfBytes([]byte{byte(224 + r/4096), byte(128 + r/64%64), byte(128 + r%64)})
	}
	return OfBytes([]byte{byte(240 + r/262144), byte(128 + r/4096%64), byte(128 + r/64%64), byte(128 + r%64)})
}

// OfRunes is string(list).
func OfRunes(list []rune) *Text {
	var r *Text
	for _, x := range list {
		r = Join(r, OfRune(int(x)))
	}
	return r
}

// Runes is []rune(t).
func Runes(t *Text) []rune {
	b := Bytes(t)
	n := 0
	for i := 0; i < Len(t); i += Width(b, i) {
		n++
	}
	r := make([]rune, n)
	n = 0
	for i := 0; i < Len(t); i += Width(b, i) {
		r[n] = rune(Rune(b, i))
		n++
	}
	return r
}

// Width is the number of bytes of the rune at place i; 1 if there is none.
func Width(b []byte, i int) int {
	c := b[i]
	n := 1
	if c >= 194 && c < 224 {
		n = 2
	} else if c >= 224 && c < 240 {
		n = 3
	} else if c >= 240 && c < 245 {
		n = 4
	}
	if i+n > len(b) {
		return 1
	}
	for k := 1; k < n; k++ {
		if b[i+k] < 128 || b[i+k] > 191 {
			return 1
		}
	}
	if n == 3 && (c == 224 && b[i+1] < 160 || c == 237 && b[i+1] > 159) || n == 4 && (c == 240 && b[i+1] < 144 || c == 244 && b[i+1] > 143) {
		return 1
	}
	return n
}

// Rune is the rune at place i; 65533 if there is none.
func Rune(b []byte, i int) int {
	n := Width(b, i)
	c := int(b[i])
	if n == 1 {
		if c < 128 {
			return c
		}
		return 65533
	}
	r := c - 192
	if n == 3 {
		r = c - 224
	} else if n == 4 {
		r = c - 240
	}
	for k := 1; k < n; k++ {
		r = r*64 + int(b[i+k]) - 128
	}
	return r
}

// Pad brings a string to a width: on the left by spaces or zeros, on the right if left is true.
func Pad(t *Text, width int, left bool, zero bool) *Text {
	n := 0
	b := Bytes(t)
	for i := 0; i < Len(t); i += Width(b, i) {
		n++
	}
	if n >= width {
		return t
	}
	c := byte(32)
	if zero && !left {
		c = 48
	}
	pad := make([]byte, width-n)
	for i := range pad {
		pad[i] = c
	}
	if left {
		return Join(t, OfBytes(pad))
	}
	if zero && Len(t) > 0 && (b[0] == 45 || b[0] == 43) {
		return Concat(Part(t, 0, 1), OfBytes(pad), Part(t, 1, -1))
	}
	return Join(OfBytes(pad), t)
}

// hexOf is a digit of base 16.
func hexOf(d int, upper bool) byte {
	if d < 10 {
		return byte(48 + d)
	}
	if upper {
		return byte(55 + d)
	}
	return byte(87 + d)
}

// Base is a number in a base up to 16.
func Base(x int, base int, upper bool) *Text {
	neg := x < 0
	n := 1
	for y := x / base; y != 0; y = y / base {
		n++
	}
	b := make([]byte, n)
	for i := n - 1; i >= 0; i-- {
		d := x % base
		if d < 0 {
			d = -d
		}
		b[i] = hexOf(d, upper)
		x = x / base
	}
	if neg {
		return Join(Const("-", 1), OfBytes(b))
	}
	return OfBytes(b)
}

// Hex has the bytes of a string in base 16.
func Hex(t *Text, upper bool) *Text {
	b := Bytes(t)
	r := make([]byte, 2*Len(t))
	for i := 0; i < Len(t); i++ {
		r[2*i] = hexOf(int(b[i])/16, upper)
		r[2*i+1] = hexOf(int(b[i])%16, upper)
	}
	return OfBytes(r)
}

// Quote is a string of ASCII characters as Go writes it.
func Quote(t *Text) *Text {
	b := Bytes(t)
	r := Const("\"", 1)
	for i := 0; i < Len(t); i++ {
		r = Join(r, quoted(int(b[i]), 34))
	}
	return Join(r, Const("\"", 1))
}

// QuoteRune is a character of ASCII as Go writes it.
func QuoteRune(x int) *Text {
	return Concat(Const("'", 1), quoted(x, 39), Const("'", 1))
}

func quoted(c int, mark int) *Text {
	if c > 126 {
		panic("lowering: %q of a character that is not of ASCII")
	}
	switch {
	case c == mark || c == 92:
		return OfBytes([]byte{92, byte(c)})
	case c == 7:
		return Const("\\a", 2)
	case c == 8:
		return Const("\\b", 2)
	case c == 9:
		return Const("\\t", 2)
	case c == 10:
		return Const("\\n", 2)
	case c == 11:
		return Const("\\v", 2)
	case c == 12:
		return Const("\\f", 2)
	case c == 13:
		return Const("\\r", 2)
	case c < 32:
		return OfBytes([]byte{92, 120, hexOf(c/16, false), hexOf(c%16, false)})
	}
	return OfBytes([]byte{byte(c)})
}

// WideBase is Base of an unsigned number of 64 bits.
func WideBase(x int, base int, upper bool) *Text {
	if x >= 0 {
		return Base(x, base, upper)
	}
	return Join(Base(UDiv(x, base), base, upper), Base(URem(x, base), base, upper))
}

// WithSign is a number with its sign, also if it has none yet.
func WithSign(t *Text) *Text {
	if c := Bytes(t)[0]; c == 43 || c == 45 {
		return t
	}
	return Join(Const("+", 1), t)
}

// Cut is the first n characters of a text.
func Cut(t *Text, n int) *Text {
	b := Bytes(t)
	i := 0
	for ; i < Len(t) && n > 0; n-- {
		i += Width(b, i)
	}
	return Part(t, 0, i)
}

// Number puts sign, prefix and leading zeros to the digits of a number.
func Number(t *Text, base int, upper, plus, space, sharp bool, prec int) *Text {
	sign := Const("", 0)
	if Bytes(t)[0] == 45 {
		sign = Const("-", 1)
		t = Part(t, 1, -1)
	} else if plus {
		sign = Const("+", 1)
	} else if space {
		sign = Const(" ", 1)
	}
	if prec == 0 && Len(t) == 1 && Bytes(t)[0] == 48 {
		return nil
	}
	t = Pad(t, prec, false, true)
	if sharp {
		switch base {
		case 16:
			if upper {
				t = Join(Const("0X", 2), t)
			} else {
				t = Join(Const("0x", 2), t)
			}
		case 8:
			if Bytes(t)[0] != 48 {
				t = Join(Const("0", 1), t)
			}
		case 2:
			t = Join(Const("0b", 2), t)
		}
	}
	return Join(sign, t)
}

// Unicode is U+0041, and with sharp the character too.
func Unicode(x int, sharp bool) *Text {
	t := Join(Const("U+", 2), Pad(WideBase(x, 16, true), 4, false, true))
	if sharp {
		t = Concat(t, Const(" '", 2), OfRune(x), Const("'", 1))
	}
	return t
}

// Writing: a string is written in parts, each on a line that ends with the mark, which golf-go takes away.
const tie Lit = "‿"
const tieByte Lit = "‿byte"
const tieErr Lit = "‿err"
const tiePanic Lit = "‿panic"
const empty Lit = ""

var out sync.Mutex

// Hold keeps other goroutines from writing between two parts of a line.
func Hold() { out.Lock() }

func Release() { out.Unlock() }

// Write writes a string to standard output.
func Write(t *Text) {
	Hold()
	write(t, empty)
	Release()
}

// WriteErr writes a string to standard error.
func WriteErr(t *Text) {
	Hold()
	write(t, tieErr)
	Release()
}

// Say keeps a string for the panic that comes.
func Say(t *Text) {
	Hold()
	write(t, tiePanic)
	Release()
}

// Panic panics with a string.
func Panic(t *Text) {
	Say(t)
	panic(tie)
}

const tieSite Lit = "‿site"

// Die ends the program by a panic that nobody recovers; site is the number of its place, 0 for none.
func Die(t *Text, site int) {
	fmt.Println(tieSite, site, tie)
	Panic(t)
}

// Unsupported ends the program, since what it does next is not supported.
func Unsupported(t *Text) { Panic(Join(Const("lowering: ", 10), t)) }

func write(t *Text, to Lit) {
	if t == nil {
		return
	}
	for l := (&todo{t: t}); l != nil; {
		x := l.t
		l = l.next
		switch x.kind {
		case isPair:
			l = &todo{x.left, &todo{x.right, l}}
		case isNum:
			if to == empty {
				fmt.Println(x.num, tie)
			} else {
				fmt.Println(to, x.num, tie)
			}
		case isLit:
			if to == empty {
				fmt.Println(x.lit, tie)
			} else {
				fmt.Println(to, x.lit, tie)
			}
		case isBytes:
			for _, c := range x.bytes {
				writeByte(int(c), to)
			}
		}
	}
}

func writeByte(c int, to Lit) {
	if c < 32 || c > 126 {
		if to == empty {
			fmt.Println(tieByte, c, tie)
		} else {
			fmt.Println(to, tieByte, c, tie)
		}
		return
	}
	if to == empty {
		fmt.Println(letters[c-32], tie)
	} else {
		fmt.Println(to, letters[c-32], tie)
	}
}

var letters = []Lit{" ", "!", "\"", "#", "$", "%", "&", "'", "(", ")", "*", "+", ",", "-", ".", "/", "0", "1", "2", "3", "4", "5", "6", "7", "8", "9", ":", ";", "<", "=", ">", "?", "@", "A", "B", "C", "D", "E", "F", "G", "H", "I", "J", "K", "L", "M", "N", "O", "P", "Q", "R", "S", "T", "U", "V", "W", "X", "Y", "Z", "[", "\\", "]", "^", "_", "`", "a", "b", "c", "d", "e", "f", "g", "h", "i", "j", "k", "l", "m", "n", "o", "p", "q", "r", "s", "t", "u", "v", "w", "x", "y", "z", "{", "|", "}", "~"}

// Signum is a number in decimal with its sign.
func Signum(x int) *Text {
	if x < 0 {
		return Itoa(x)
	}
	return Join(Const("+", 1), Itoa(x))
}

func MinText(a, b *Text) *Text {
	if Compare(b, a) < 0 {
		return b
	}
	return a
}

func MaxText(a, b *Text) *Text {
	if Compare(b, a) > 0 {
		return b
	}
	return a
}
