package lower

import (
	"go/ast"
	"go/types"
	"strings"

	"golflower/analyse"
)

// Generic functions and types are lowered once for each list of type arguments. While an instance is lowered, p.sub has
// its type arguments, and each type that the checker recorded goes through subst.

// typ is the type of an expression in the instance that is being lowered.
func (p *prog) typ(e ast.Expr) types.Type { return p.subst(p.Info.TypeOf(e)) }

// vtype is the type of a variable in the instance that is being lowered.
func (p *prog) vtype(v *types.Var) types.Type { return p.subst(v.Type()) }

// tuple is subst of a tuple.
func (p *prog) tuple(t *types.Tuple) *types.Tuple {
	if len(p.sub) == 0 || t == nil {
		return t
	}
	return p.substTuple(t)
}

// subst puts the type arguments in place of the type parameters.
func (p *prog) subst(t types.Type) types.Type {
	if len(p.sub) == 0 || t == nil {
		return t
	}
	return p.substIn(t)
}

func (p *prog) substIn(t types.Type) types.Type {
	switch t := t.(type) {
	case *types.TypeParam:
		if a, ok := p.sub[t]; ok {
			return a
		}
	case *types.Alias:
		return p.substIn(types.Unalias(t))
	case *types.Named:
		return p.substNamed(t)
	case *types.Pointer:
		return types.NewPointer(p.substIn(t.Elem()))
	case *types.Slice:
		return types.NewSlice(p.substIn(t.Elem()))
	case *types.Array:
		return types.NewArray(p.substIn(t.Elem()), t.Len())
	case *types.Map:
		return types.NewMap(p.substIn(t.Key()), p.substIn(t.Elem()))
	case *types.Chan:
		return types.NewChan(t.Dir(), p.substIn(t.Elem()))
	case *types.Tuple:
		return p.substTuple(t)
	case *types.Signature:
		return types.NewSignatureType(nil, nil, nil, p.substTuple(t.Params()), p.substTuple(t.Results()), t.Variadic())
	case *types.Struct:
		return p.substStruct(t)
	case *types.Interface:
		return p.substInterface(t)
	}
	return t
}

func (p *prog) substNamed(t *types.Named) types.Type {
	if t.TypeArgs().Len() == 0 {
		if p.InGeneric[t.Obj()] {
			p.refuse("type %s that is declared in a generic function", t.Obj().Name())
		}
		return t
	}
	var args []types.Type
	for i := 0; i < t.TypeArgs().Len(); i++ {
		args = append(args, p.substIn(t.TypeArgs().At(i)))
	}
	r, err := types.Instantiate(p.Context, t.Origin(), args, false)
	if err != nil {
		p.refuse("instance of %s", t.Obj().Name())
	}
	return r
}

func (p *prog) substTuple(t *types.Tuple) *types.Tuple {
	var vars []*types.Var
	for i := 0; i < t.Len(); i++ {
		v := t.At(i)
		vars = append(vars, types.NewVar(v.Pos(), v.Pkg(), v.Name(), p.substIn(v.Type())))
	}
	return types.NewTuple(vars...)
}

func (p *prog) substStruct(t *types.Struct) types.Type {
	var fields []*types.Var
	var tags []string
	same := true
	for i := 0; i < t.NumFields(); i++ {
		v := t.Field(i)
		ft := p.substIn(v.Type())
		same = same && types.Identical(ft, v.Type())
		fields = append(fields, types.NewField(v.Pos(), v.Pkg(), v.Name(), ft, v.Embedded()))
		tags = append(tags, t.Tag(i))
	}
	if same {
		return t
	}
	return types.NewStruct(fields, tags)
}

func (p *prog) substInterface(t *types.Interface) types.Type {
	if t.NumMethods() == 0 {
		return t
	}
	var methods []*types.Func
	same := true
	for i := 0; i < t.NumMethods(); i++ {
		m := t.Method(i)
		sig := p.substIn(m.Signature()).(*types.Signature)
		same = same && types.Identical(sig, m.Signature())
		methods = append(methods, types.NewFunc(m.Pos(), m.Pkg(), m.Name(), sig))
	}
	if same {
		return t
	}
	return types.NewInterfaceType(methods, nil).Complete()
}

// within runs g with the type arguments of an instance.
func (p *prog) within(sub map[*types.TypeParam]types.Type, key string, g func()) {
	oldSub, oldKey, oldPos := p.sub, p.subKey, p.pos
	p.sub, p.subKey = sub, key
	g()
	p.sub, p.subKey, p.pos = oldSub, oldKey, oldPos
}

// later lowers something once all else is done, with the type arguments of now.
func (p *prog) later(g func()) {
	sub, key := p.sub, p.subKey
	p.queue = append(p.queue, func() { p.within(sub, key, g) })
}

// instance is the substitution for a list of type arguments.
func instance(params []*types.TypeParam, args []types.Type) (map[*types.TypeParam]types.Type, string) {
	if len(params) == 0 {
		return nil, ""
	}
	sub := map[*types.TypeParam]types.Type{}
	var key strings.Builder
	for i, p := range params {
		sub[p] = args[i]
		key.WriteString("[" + typeKey(args[i]) + "]")
	}
	return sub, key.String()
}

// typeArgs are the type arguments at a use of a generic function.
func (p *prog) typeArgs(e ast.Expr) []types.Type {
	var id *ast.Ident
	switch x := generic(e).(type) {
	case *ast.Ident:
		id = x
	case *ast.SelectorExpr:
		id = x.Sel
	default:
		return nil
	}
	in, ok := p.Info.Instances[id]
	if !ok {
		return nil
	}
	var args []types.Type
	for i := 0; i < in.TypeArgs.Len(); i++ {
		args = append(args, p.subst(in.TypeArgs.At(i)))
	}
	return args
}

// generic is the name of a function in f[T].
func generic(e ast.Expr) ast.Expr { return analyse.Generic(e) }

// recvArgs are the type arguments of the receiver of a method.
func recvArgs(fn *types.Func) []types.Type {
	recv := fn.Signature().Recv()
	if recv == nil {
		return nil
	}
	n, ok := types.Unalias(deref(recv.Type())).(*types.Named)
	if !ok {
		return nil
	}
	var args []types.Type
	for i := 0; i < n.TypeArgs().Len(); i++ {
		args = append(args, n.TypeArgs().At(i))
	}
	return args
}

// methodArgs are the type arguments of a method: those of the receiver, then those of its own.
func (p *prog) methodArgs(fn *types.Func, e *ast.SelectorExpr) []types.Type {
	return append(recvArgs(fn), p.typeArgs(e)...)
}

// selection is what x.sel means in the instance that is being lowered.
type selection struct {
	kind  types.SelectionKind
	recv  types.Type
	obj   types.Object
	index []int
}

// selectionOf is nil for a name of a package.
func (p *prog) selectionOf(e *ast.SelectorExpr) *selection {
	s := p.Info.Selections[e]
	if s == nil {
		return nil
	}
	r := &selection{s.Kind(), s.Recv(), s.Obj(), s.Index()}
	if len(p.sub) == 0 {
		return r
	}
	r.recv = p.subst(s.Recv())
	obj, index, _ := types.LookupFieldOrMethod(r.recv, true, s.Obj().Pkg(), s.Obj().Name())
	if obj == nil {
		p.refuse("%s of type %s", e.Sel.Name, r.recv)
	}
	r.obj, r.index = obj, index
	return r
}
