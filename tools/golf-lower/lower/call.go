package lower

import (
	"fmt"
	"go/ast"
	"go/types"
	"strings"

	"golflower/analyse"
)

// callee is the function that a call names, nil if it calls a value.
func (p *prog) callee(c *ast.CallExpr) *types.Func { return analyse.Callee(p.Info, c) }

// isBuiltin is the name of the built-in function that a call names, "" if it names none.
func (p *prog) isBuiltin(c *ast.CallExpr) string {
	if id, ok := ast.Unparen(c.Fun).(*ast.Ident); ok {
		if b, ok := p.Info.Uses[id].(*types.Builtin); ok {
			return b.Name()
		}
	}
	return ""
}

// call is a call as an expression: in a program that recovers, what it gives is looked at first.
func (f *fctx) call(c *ast.CallExpr) string {
	p := f.p
	x := f.callText(c)
	if !f.unwinds() || p.Info.Types[c.Fun].IsType() || p.isBuiltin(c) != "" {
		return x
	}
	sig, ok := under(f.typeOf(c.Fun)).(*types.Signature)
	if !ok || isSmall(x) {
		return x
	}
	return f.checked(x, sig)
}

// callText is the call itself.
func (f *fctx) callText(c *ast.CallExpr) string {
	p := f.p
	if p.Info.Types[c.Fun].IsType() {
		return f.conversion(c)
	}
	f.early(append([]ast.Expr{c.Fun}, c.Args...)...)
	if b := p.isBuiltin(c); b != "" {
		return f.builtin(b, c)
	}
	if x, ok := f.unsafeCall(c); ok {
		return x
	}
	sig, ok := under(f.typeOf(c.Fun)).(*types.Signature)
	if !ok {
		p.refuse("this call")
	}
	fn := p.callee(c)
	if fn != nil {
		if x, ok := f.intrinsic(fn, c); ok {
			return x
		}
	}
	f.secondOfCall(c, sig)
	// a literal that is called at once
	if lit, ok := ast.Unparen(c.Fun).(*ast.FuncLit); ok {
		name, li := f.lift(lit)
		args := f.args(sig, c)
		return fmt.Sprintf("%s(%s)", name, strings.Join(append(p.capNames(li), args...), ", "))
	}
	if fn == nil {
		fi := p.fnStruct(sig)
		xs := f.ordered(func() string { return f.expr(c.Fun) }, f.argsText(sig, c))
		return fmt.Sprintf("%s_call(%s)", fi.name, join(xs[0], xs[1]))
	}
	sel, _ := generic(c.Fun).(*ast.SelectorExpr)
	if sel == nil || p.Info.Selections[sel] == nil {
		return fmt.Sprintf("%s(%s)", p.funcRef(fn, p.typeArgs(c.Fun)), strings.Join(f.args(sig, c), ", "))
	}
	s := p.selectionOf(sel)
	if s.kind == types.MethodExpr {
		fi := p.fnStruct(sig)
		return fmt.Sprintf("%s_call(%s)", fi.name, join(f.expr(c.Fun), f.argsText(sig, c)()))
	}
	if s.kind == types.FieldVal {
		fi := p.fnStruct(sig)
		xs := f.ordered(func() string { return f.expr(c.Fun) }, f.argsText(sig, c))
		return fmt.Sprintf("%s_call(%s)", fi.name, join(xs[0], xs[1]))
	}
	var call func(string, []string) string
	held := ""
	xs := f.ordered(func() string {
		r, l, g := f.boundMethod(sel, s)
		call, held = g, l
		return r
	}, f.argsText(sig, c))
	if held == anyText { // it is looked for its method behind the arguments
		xs[0] = f.notNil(xs[0])
	}
	var args []string
	if xs[1] != "" {
		args = []string{xs[1]}
	}
	return call(xs[0], args)
}

func join(a, b string) string {
	if b == "" {
		return a
	}
	return a + ", " + b
}

func (f *fctx) argsText(sig *types.Signature, c *ast.CallExpr) func() string {
	return func() string { return strings.Join(f.args(sig, c), ", ") }
}

// args are the arguments of a call, converted to the parameters.
func (f *fctx) args(sig *types.Signature, c *ast.CallExpr) []string {
	n := sig.Params().Len()
	if len(c.Args) == 1 {
		if tup, ok := f.typeOf(c.Args[0]).(*types.Tuple); ok && tup.Len() > 1 {
			parts, ts := f.multi(c.Args[0], tup.Len())
			if sig.Variadic() {
				elem := under(sig.Params().At(n - 1).Type()).(*types.Slice).Elem()
				for i := range parts {
					if i < n-1 {
						parts[i] = f.convert(parts[i], ts[i], sig.Params().At(i).Type())
					} else {
						parts[i] = f.convert(parts[i], ts[i], elem)
					}
				}
				rest := f.p.sliceOf(elem, f.p.arrayOf(elem, parts[n-1:]), 0)
				return append(append([]string(nil), parts[:n-1]...), rest)
			}
			for i := range parts {
				parts[i] = f.convert(parts[i], ts[i], sig.Params().At(i).Type())
			}
			return parts
		}
	}
	var gs []func() string
	for i, a := range c.Args {
		var t types.Type
		if sig.Variadic() && i >= n-1 {
			t = sig.Params().At(n - 1).Type()
			if !c.Ellipsis.IsValid() {
				t = under(t).(*types.Slice).Elem()
			}
		} else {
			t = sig.Params().At(i).Type()
		}
		gs = append(gs, func() string { return f.rval(a, t) })
	}
	xs := f.ordered(gs...)
	if sig.Variadic() && !c.Ellipsis.IsValid() {
		rest := xs[n-1:]
		elem := under(sig.Params().At(n - 1).Type()).(*types.Slice).Elem()
		v := "nil"
		if len(rest) > 0 {
			v = f.p.sliceOf(elem, f.p.arrayOf(elem, rest), len(rest))
		}
		xs = append(append([]string(nil), xs[:n-1]...), v)
	}
	return xs
}

// anyText is the type of the subset that holds interfaces.
const anyText = "*golf_any"

// boundMethod is the receiver of x.m, its type in the subset, and how to call m on it. An interface may be nil.
func (f *fctx) boundMethod(e *ast.SelectorExpr, s *selection) (string, string, func(string, []string) string) {
	p := f.p
	path := s.index
	x, t := f.walk(f.expr(e.X), f.typeOf(e.X), path[:len(path)-1])
	fn := s.obj.(*types.Func)
	call := func(name string) func(string, []string) string {
		return func(recv string, args []string) string {
			return fmt.Sprintf("%s(%s)", name, strings.Join(append([]string{recv}, args...), ", "))
		}
	}
	if isIface(t) {
		if native(deref(f.typeOf(e.X))) == "sync.Cond" {
			p.refuse("L of a condition")
		}
		return x, anyText, call(p.dispatcherOf(fn).name)
	}
	base := deref(t)
	if native(base) != "" {
		if o := p.bodies[fn.Origin()]; o == nil || o.Body == nil {
			if p.rawNative {
				x = f.settle(x)
			}
			return x, p.lt(base), func(recv string, args []string) string {
				return p.nativeCall(recv, base, fn.Name(), args)
			}
		}
	}
	recv := fn.Signature().Recv().Type()
	if isPtr(recv) {
		if !isPtr(t) && !isRef(t) {
			if !strings.HasSuffix(x, ".v") {
				p.refuse("address of this receiver")
			}
			x = strings.TrimSuffix(x, ".v")
		}
	} else if isPtr(t) {
		x = f.notNil(x)
		if isRef(base) {
			x = p.copyOf(base, x)
		} else {
			x += ".v"
		}
	} else if isRef(t) && !(len(path) == 1 && f.isFresh(e.X)) {
		x = p.copyOf(t, x)
	}
	return x, p.lt(recv), call(p.funcRef(fn, p.methodArgs(fn, e)))
}

// nativeCall is a method of a type of sync.
func (p *prog) nativeCall(x string, t types.Type, name string, args []string) string {
	n := native(t)
	if n == "sync.Cond" && p.GenericCond {
		return p.condCall(x, name)
	}
	ok := map[string]string{
		"sync.Mutex": " Lock Unlock ", "sync.RWMutex": " Lock Unlock RLock RUnlock ",
		"sync.WaitGroup": " Add Done Wait ", "sync.Cond": " Wait Signal Broadcast ",
	}[n]
	if !strings.Contains(ok, " "+name+" ") {
		p.refuse("%s.%s", n, name)
	}
	if p.clock && !p.rawNative && blocking["(*"+n+")."+name] {
		return p.blockingCall(x, n, name)
	}
	return fmt.Sprintf("%s.%s(%s)", x, name, strings.Join(args, ", "))
}
