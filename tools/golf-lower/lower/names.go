package lower

import (
	"fmt"
	"go/ast"
	"go/types"
	"slices"
	"strings"
)

// names gives each object of the program a name of the output.
//
// A name at the top of the output is unique, and no local variable has it. A local variable has the name that it has in
// the user's file, with a number behind it if another variable of the same function has that name.
type names struct {
	top    map[string]bool // names at the top of the output
	idents map[string]bool // all names in the user's files
	locals map[string]bool // names of local variables that are no names of the user's files
	objs   map[nameKey]string
	insts  map[string]string // instances of generic functions and types
}

// nameKey is an object, in an instance of a generic function if it is local to one.
type nameKey struct {
	obj types.Object
	sub string
}

func newNames() names {
	n := names{
		top: map[string]bool{}, idents: map[string]bool{}, locals: map[string]bool{},
		objs: map[nameKey]string{}, insts: map[string]string{},
	}
	for _, w := range reserved {
		n.top[w] = true
	}
	return n
}

// reserved are names that the subset or the generated functions need for themselves.
var reserved = strings.Fields(`any bool byte comparable complex64 complex128 error float32 float64 int int8 int16 int32
int64 rune string uint uint8 uint16 uint32 uint64 uintptr true false iota nil append cap clear close complex copy delete
imag len make max min new panic print println real recover main init fmt runtime sync break case chan const continue
default defer else fallthrough for func go goto if import interface map package range return select struct switch type
var golf_any golf_deep golf_init _ fv tag golf_g golf_G golf_P golf_D golf_raise golf_goexit golf_recover golf_aside golf_back golf_end
golf_main`)

// reservedTypes are names that the generated functions give to their variables, beside types of the user's files.
var reservedTypes = strings.Fields(`a b c d e f g h i j k l m n o p q r s t u v w x y z at ks vs lo hi eq`)

func init() {
	for i := 0; i < 64; i++ {
		reserved = append(reserved, fmt.Sprintf("a%d", i))
	}
}

// collect notes the names of a file.
func (n *names) collect(f *ast.File) {
	ast.Inspect(f, func(node ast.Node) bool {
		if id, ok := node.(*ast.Ident); ok {
			n.idents[ascii(id.Name)] = true
		}
		return true
	})
}

// ascii makes a name of the subset of a name of Go.
func ascii(s string) string {
	var sb strings.Builder
	for _, r := range s {
		if r < 128 {
			sb.WriteRune(r)
		} else {
			fmt.Fprintf(&sb, "u%x", r)
		}
	}
	return sb.String()
}

// fresh is a new name at the top of the output. The user's own objects may have the names of the user's files.
func (n *names) fresh(base string, own bool) string {
	name := base
	for i := 2; n.top[name] || n.locals[name] || !own && n.idents[name]; i++ {
		name = fmt.Sprintf("%s_%d", base, i)
		own = false
	}
	n.top[name] = true
	return name
}

// fresh is a new name at the top of the output.
func (p *prog) fresh(base string) string { return p.names.fresh(base, false) }

// local is a new name in a function of which taken are the names so far.
func (n *names) local(base string, taken map[string]bool) string {
	if base == "" || base == "_" {
		base = "unused"
	}
	name := base
	for i := 2; n.top[name] || taken[name] || i > 2 && n.idents[name]; i++ {
		name = fmt.Sprintf("%s%d", base, i)
	}
	if !n.idents[name] {
		n.locals[name] = true
	}
	taken[name] = true
	return name
}

// objName is the name of an object at the top of a package, or of a field's or method's owner.
func (p *prog) objName(o types.Object) string {
	key := nameKey{o, ""}
	if n, ok := p.names.objs[key]; ok {
		return n
	}
	base := ascii(o.Name())
	_, isFunc := o.(*types.Func)
	own := o.Pkg() == nil
	for _, k := range p.Roots {
		own = own || o.Pkg() == k.Types
	}
	if !own && (isFunc || o.Parent() == o.Pkg().Scope()) {
		base = mangle(strings.ReplaceAll(o.Pkg().Path(), "/", "_")) + "_" + base
	}
	if f, ok := o.(*types.Func); ok {
		if r := f.Signature().Recv(); r != nil {
			if n, ok := types.Unalias(deref(r.Type())).(*types.Named); ok {
				base = p.objName(n.Obj()) + "_" + ascii(f.Name())
				own = false
			}
		}
	}
	if base == "_" {
		base = "blank"
	}
	if _, ok := o.(*types.TypeName); ok && slices.Contains(reservedTypes, base) {
		base += "_type"
	}
	n := p.names.fresh(base, own)
	p.names.objs[key] = n
	return n
}

// instName is the name of an instance of a generic function or type.
func (p *prog) instName(o types.Object, args []types.Type) string {
	if len(args) == 0 {
		return p.objName(o)
	}
	base := p.objName(o)
	key := base
	short := base
	for _, a := range args {
		key += "[" + typeKey(a) + "]"
		short += "_" + mangle(strings.ReplaceAll(types.TypeString(a, func(*types.Package) string { return "" }), ".", ""))
	}
	if n, ok := p.names.insts[key]; ok {
		return n
	}
	if len(short) > len(base)+40 {
		short = base
	}
	n := p.fresh(short)
	p.names.insts[key] = n
	return n
}
