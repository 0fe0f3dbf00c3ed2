package lower

import (
	"go/types"

	"golflower/kind"
)

// What the lowering asks of types most often, by short names.

func native(t types.Type) string    { return kind.Native(t) }
func under(t types.Type) types.Type { return t.Underlying() }
func deref(t types.Type) types.Type { return kind.Deref(t) }
func typeKey(t types.Type) string   { return kind.Key(t) }
func isStruct(t types.Type) bool    { return kind.IsStruct(t) }
func isArray(t types.Type) bool     { return kind.IsArray(t) }
func isRef(t types.Type) bool       { return kind.IsRef(t) }
func isIface(t types.Type) bool     { return kind.IsIface(t) }
func isPtr(t types.Type) bool       { return kind.IsPtr(t) }
func isParam(t types.Type) bool     { return kind.IsParam(t) }
