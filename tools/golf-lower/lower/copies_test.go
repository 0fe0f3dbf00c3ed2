package lower

import (
	"go/types"
	"testing"
)

// Go's compiler takes the address of what an interface gets, and of a key, exactly for these types.
func TestWhatIsTakenByItsAddress(t *testing.T) {
	i8, i16, i32, i64 := types.Typ[types.Int8], types.Typ[types.Int16], types.Typ[types.Int32], types.Typ[types.Int64]
	text, real := types.Typ[types.String], types.Typ[types.Float64]
	field := func(list ...types.Type) types.Type {
		var fields []*types.Var
		for i, f := range list {
			fields = append(fields, types.NewField(0, nil, string(rune('a'+i)), f, false))
		}
		return types.NewStruct(fields, nil)
	}
	for _, c := range []struct {
		name               string
		t                  types.Type
		value, key, memory bool
	}{
		{"int8", i8, true, true, false},
		{"int16", i16, false, true, false},
		{"int32", i32, false, false, false},
		{"int64", i64, false, false, false},
		{"float64", real, false, true, false},
		{"string", text, false, false, false},
		{"bool", types.Typ[types.Bool], true, true, false},
		{"a pointer", types.NewPointer(i64), true, false, false},
		{"a slice", types.NewSlice(i64), false, true, false},
		{"a struct of an int64", field(i64), false, false, true},
		{"a struct of a string", field(text), false, true, false},
		{"a struct of two int32", field(i32, i32), true, false, true},
		{"a struct of int8 and int32", field(i8, i32), true, true, false},
		{"a struct of two int64", field(i64, i64), true, true, false},
		{"an array of one int64", types.NewArray(i64, 1), false, false, true},
		{"an array of two floats", types.NewArray(real, 2), true, true, false},
	} {
		value, key, memory := byAddress(c.t), keyByAddress(types.NewMap(c.t, i64)), keyInMemory(c.t)
		if value != c.value || key != c.key || memory != c.memory {
			t.Errorf("%s: %v %v %v, want %v %v %v", c.name, value, key, memory, c.value, c.key, c.memory)
		}
	}
	if large := types.NewMap(i64, types.NewArray(i64, 17)); !keyByAddress(large) {
		t.Error("a map with large elements takes the key by value")
	}
}
