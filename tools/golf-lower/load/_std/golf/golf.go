// Package golf has what the lowering itself needs.
package golf

// Signed brings x into the range of a signed type with 2*half values.
func Signed(x int, half int) int {
	m := 2 * half
	x = x % m
	if x >= half {
		return x - m
	}
	if x < -half {
		return x + m
	}
	return x
}

// Unsigned brings x into 0 to m-1.
func Unsigned(x int, m int) int {
	x = x % m
	if x < 0 {
		return x + m
	}
	return x
}

// ULess compares unsigned integers of 64 bits.
func ULess(x int, y int) bool { return x+-9223372036854775807-1 < y+-9223372036854775807-1 }

func UMin(x int, y int) int {
	if ULess(x, y) {
		return x
	}
	return y
}

func UMax(x int, y int) int {
	if ULess(x, y) {
		return y
	}
	return x
}

// UDiv is x / y of unsigned integers of 64 bits.
func UDiv(x int, y int) int {
	if x >= 0 && y > 0 {
		return x / y
	}
	if y < 0 {
		if ULess(x, y) {
			return 0
		}
		return 1
	}
	q := UPart(x, 2) / y * 2
	if r := x - q*y; !ULess(r, y) {
		return q + 1
	}
	return q
}

func URem(x int, y int) int {
	if x >= 0 && y > 0 {
		return x % y
	}
	return x - UDiv(x, y)*y
}

// UPart is x / m for an unsigned x, where m is a power of two from 2 to 2^62.
func UPart(x int, m int) int {
	if x >= 0 {
		return x / m
	}
	return (x-Unsigned(x, m))/m + 9223372036854775807/m + 1 + 9223372036854775807/m + 1
}

// UShr is x >> n for an unsigned x.
func UShr(x int, n int) int {
	if n < 0 || n > 63 {
		return 0
	}
	if n == 0 {
		return x
	}
	if n == 63 {
		if x < 0 {
			return 1
		}
		return 0
	}
	return UPart(x, power(n))
}

// Count is an unsigned count of a shift.
func Count(n int) int {
	if n < 0 || n > 64 {
		return 64
	}
	return n
}

func power(n int) int {
	p := 1
	for n > 0 {
		p = p * 2
		n--
	}
	return p
}

// Floor is x / m, rounded down, where m is a power of two.
func Floor(x int, m int) int {
	if x >= 0 {
		return x / m
	}
	return (x - Unsigned(x, m)) / m
}

func Min(x int, y int) int {
	if x < y {
		return x
	}
	return y
}

func Max(x int, y int) int {
	if x > y {
		return x
	}
	return y
}

// Bound is a bound of a slice, where -1 stands for none.
func Bound(x int) int {
	if x < 0 {
		return -2
	}
	return x
}

// half is x/2, rounded down.
func half(x int) int {
	if x < 0 && x%2 != 0 {
		return x/2 - 1
	}
	return x / 2
}

// bit is the lowest bit of x.
func bit(x int) int {
	if x%2 == 0 {
		return 0
	}
	return 1
}

// ands has the bits that two digits of base 16 share.
var ands = [256]int{
	0, 0, 0, 0, 0, 0, 0, 0, 0, 0, 0, 0, 0, 0, 0, 0,
	0, 1, 0, 1, 0, 1, 0, 1, 0, 1, 0, 1, 0, 1, 0, 1,
	0, 0, 2, 2, 0, 0, 2, 2, 0, 0, 2, 2, 0, 0, 2, 2,
	0, 1, 2, 3, 0, 1, 2, 3, 0, 1, 2, 3, 0, 1, 2, 3,
	0, 0, 0, 0, 4, 4, 4, 4, 0, 0, 0, 0, 4, 4, 4, 4,
	0, 1, 0, 1, 4, 5, 4, 5, 0, 1, 0, 1, 4, 5, 4, 5,
	0, 0, 2, 2, 4, 4, 6, 6, 0, 0, 2, 2, 4, 4, 6, 6,
	0, 1, 2, 3, 4, 5, 6, 7, 0, 1, 2, 3, 4, 5, 6, 7,
	0, 0, 0, 0, 0, 0, 0, 0, 8, 8, 8, 8, 8, 8, 8, 8,
	0, 1, 0, 1, 0, 1, 0, 1, 8, 9, 8, 9, 8, 9, 8, 9,
	0, 0, 2, 2, 0, 0, 2, 2, 8, 8, 10, 10, 8, 8, 10, 10,
	0, 1, 2, 3, 0, 1, 2, 3, 8, 9, 10, 11, 8, 9, 10, 11,
	0, 0, 0, 0, 4, 4, 4, 4, 8, 8, 8, 8, 12, 12, 12, 12,
	0, 1, 0, 1, 4, 5, 4, 5, 8, 9, 8, 9, 12, 13, 12, 13,
	0, 0, 2, 2, 4, 4, 6, 6, 8, 8, 10, 10, 12, 12, 14, 14,
	0, 1, 2, 3, 4, 5, 6, 7, 8, 9, 10, 11, 12, 13, 14, 15,
}

const lowest = -9223372036854775807 - 1

func And(x int, y int) int {
	if y < 0 && x >= 0 {
		t := x
		x = y
		y = t
	}
	top := 0
	if x < 0 {
		if y < 0 {
			top = lowest
			y = y - lowest
		}
		x = x - lowest
	}
	r := 0
	p := 1
	for x != 0 && y != 0 {
		r = r + p*ands[x%16*16+y%16]
		x = x / 16
		y = y / 16
		p = p * 16
	}
	return r + top
}

func Or(x int, y int) int { return x + y - And(x, y) }

func Xor(x int, y int) int { return x + y - 2*And(x, y) }

func AndNot(x int, y int) int { return x - And(x, y) }

func Shl(x int, n int) int {
	if n < 0 {
		panic("runtime error: negative shift amount")
	}
	if n > 63 {
		return 0
	}
	return x * power(n)
}

func Shr(x int, n int) int {
	if n < 0 {
		panic("runtime error: negative shift amount")
	}
	if n > 62 {
		if x < 0 {
			return -1
		}
		return 0
	}
	return Floor(x, power(n))
}

// TableSize is the size of the table of a map with room for c keys: a prime that is about twice as large.
func TableSize(c int) int {
	if c <= 16 {
		return 37
	}
	if c <= 64 {
		return 131
	}
	if c <= 128 {
		return 257
	}
	if c <= 256 {
		return 521
	}
	if c <= 512 {
		return 1031
	}
	if c <= 1024 {
		return 2053
	}
	if c <= 2048 {
		return 4099
	}
	if c <= 4096 {
		return 8209
	}
	if c <= 8192 {
		return 16411
	}
	if c <= 16384 {
		return 32771
	}
	return 65521
}

var addr int

// NextAddr numbers the objects whose address is used as a number.
func NextAddr() int {
	addr += 16
	return addr
}

// Exit ends the program.
func Exit(code int) { exit(code) }

func exit(code int)

// divlu is the one of runtime/softfloat64.go without goto: (u1*2^64 + u0) / v for u1 < v.
func divlu(u1, u0, v uint64) (q, r uint64) {
	for i := 0; i < 64; i++ {
		top := u1 >> 63
		u1 = u1*2 + u0>>63
		u0 = u0 * 2
		q = q * 2
		if top == 1 || u1 >= v {
			u1 -= v
			q++
		}
	}
	return q, u1
}
