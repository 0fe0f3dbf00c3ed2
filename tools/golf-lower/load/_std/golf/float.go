package golf

// The built-in functions min and max of floats: an operand that is no number is the result, and -0 is less than 0.

const (
	sign64 uint64 = 1 << 63
	sign32 uint32 = 1 << 31
)

func fmax64(x, y uint64) uint64 {
	if !feq64(x, x) || fgt64(x, y) {
		return x
	}
	if feq64(x, y) {
		return x & y
	}
	return y
}

func fmin64(x, y uint64) uint64 { return fmax64(x^sign64, y^sign64) ^ sign64 }

func fmax32(x, y uint32) uint32 {
	if !feq32(x, x) || fgt32(x, y) {
		return x
	}
	if feq32(x, y) {
		return x & y
	}
	return y
}

func fmin32(x, y uint32) uint32 { return fmax32(x^sign32, y^sign32) ^ sign32 }
