//go:build never

package stock

const machine = 3 // another declaration: this file is not built
