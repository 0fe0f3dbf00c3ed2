package lower

import (
	"fmt"
	"go/ast"
	"go/types"
	"sort"
	"strings"

	"golflower/load"
)

// stdFunc refers to a function of _std.
func (p *prog) stdFunc(pk, name string) string {
	if _, err := p.Import(pk); err != nil {
		p.refuse("package %s", pk)
	}
	fn := p.Loaded(pk).Types.Scope().Lookup(name).(*types.Func)
	return p.funcRef(fn, nil)
}

// golf calls a function of _std/golf.
func (p *prog) golf(name string, args ...string) string {
	return fmt.Sprintf("%s(%s)", p.stdFunc("golf", name), strings.Join(args, ", "))
}

// funcRef is the name of a function or method, which is lowered once it is referred to.
func (p *prog) funcRef(fn *types.Func, args []types.Type) string {
	if args == nil {
		args = recvArgs(fn)
	}
	fn = fn.Origin()
	sig := fn.Signature()
	if to, args := p.forwarded(fn); to != nil {
		return p.funcRef(to, args)
	}
	var params []*types.TypeParam
	for _, list := range []*types.TypeParamList{sig.RecvTypeParams(), sig.TypeParams()} {
		for i := 0; i < list.Len(); i++ {
			params = append(params, list.At(i))
		}
	}
	if len(params) != len(args) {
		p.refuse("generic function %s as a value", fn.Name())
	}
	name := p.instName(fn, args)
	if name == "main" && sig.Recv() == nil {
		p.refuse("main as a function that is called")
	}
	if p.asked[name] {
		return name
	}
	p.asked[name] = true
	if load.IsStandard(p.Fset.Position(fn.Pos()).Filename) {
		p.library[name] = fn.FullName()
	}
	if len(p.asked) > 20000 {
		p.refuse("so many instances of generic functions")
	}
	if fn.Pkg() != nil {
		p.reached[fn.Pkg()] = true
	}
	p.parallel = p.parallel || fn.FullName() == "(*testing.T).Parallel"
	p.parts = p.parts || fn.FullName() == "(*testing.T).Run"
	fd := p.bodies[fn]
	if fd == nil || fd.Body == nil {
		p.refuse("function %s", fn.FullName())
	}
	p.faulty(fd)
	sub, key := instance(params, args)
	p.queue = append(p.queue, func() {
		p.within(sub, key, func() {
			p.pos = fd.Pos()
			p.try(func() {
				p.function(&function{name: name, recv: sig.Recv(), sig: sig, body: fd.Body, pos: fd.Pos(), test: p.isTest(fd)})
			})
		})
	})
	return name
}

// forwarded is the function, with its type arguments, that a function of the models calls with its own parameters and does
// nothing else. It is nil for other functions.
func (p *prog) forwarded(fn *types.Func) (*types.Func, []types.Type) {
	fd := p.bodies[fn]
	if fd == nil || fd.Recv != nil || fd.Body == nil || len(fd.Body.List) != 1 || fn.Signature().TypeParams().Len() > 0 ||
		!load.IsStandard(p.Fset.Position(fd.Pos()).Filename) {
		return nil, nil
	}
	ret, ok := fd.Body.List[0].(*ast.ReturnStmt)
	if !ok || len(ret.Results) != 1 {
		return nil, nil
	}
	call, ok := ret.Results[0].(*ast.CallExpr)
	if !ok || len(call.Args) != fn.Signature().Params().Len() || call.Ellipsis.IsValid() {
		return nil, nil
	}
	for i, a := range call.Args {
		id, ok := a.(*ast.Ident)
		if !ok || p.Info.Uses[id] != fn.Signature().Params().At(i) {
			return nil, nil
		}
	}
	to := p.callee(call)
	sig, ok := p.Info.Types[call.Fun].Type.(*types.Signature)
	if !ok || to == nil || to.Signature().Recv() != nil || to.Pkg() != fn.Pkg() || !sameSig(sig, fn.Signature()) {
		return nil, nil
	}
	return to, p.typeArgs(call.Fun)
}

// globalRef is the text of a global variable.
func (p *prog) globalRef(v *types.Var) string {
	name := p.objName(v)
	boxed := p.isBoxed(v)
	if !p.globs[v] {
		p.globs[v] = true
		l, z := p.lt(v.Type()), p.zero(v.Type())
		ln := p.orig(v.Pos())
		switch {
		case boxed:
			p.globals.add(ln, "var %s *%s = &%s{}", name, p.box(l), p.box(l))
		case l == "struct{}" || native(v.Type()) != "":
			p.globals.add(ln, "var %s %s = %s", name, l, z)
		default:
			p.globals.add(ln, "var %s %s", name, l)
		}
	}
	if boxed {
		return name + ".v"
	}
	return name
}

// whole lowers from main on, until nothing new is referred to.
func (p *prog) whole() {
	main, inits := p.starts()
	for k, list := range inits {
		if k.User {
			p.startOf(k, list)
		}
	}
	var mainBuf *buffer
	if main != nil {
		p.faulty(main)
	}
	if p.opt.Tests {
		mainBuf = p.testMain()
	} else {
		fn := p.Info.Defs[main.Name].(*types.Func)
		mainBuf = p.functionBuf(&function{name: "main", sig: fn.Signature(), body: main.Body, pos: main.Pos()})
	}
	if p.opt.Late {
		p.stdFunc("time", "Late")
	}
	if p.opt.Hold {
		p.stall()
		p.resume()
	}
	if p.opt.Tests && p.clock {
		p.stdFunc("time", "settle")
	}
	p.unwindHelpers()
	p.clockHelpers()
	p.initialisers()
	p.mainChunks(mainBuf)
	p.tables()
	p.drain()
}

// mainChunks writes main: it begins with what Go does before main, and in a program that recovers the user's main is a
// function of its own.
func (p *prog) mainChunks(user *buffer) {
	pos := user.lines[0].Pos
	b := &buffer{}
	b.add(pos, "func main() {")
	if p.opt.Collect {
		b.add(pos, "defer %s()", p.lastCollector())
	}
	b.add(0, "golf_init()")
	if !p.unwind {
		b.lines = append(b.lines, user.lines[1:]...)
		p.chunk(b)
		return
	}
	user.lines[0].Text = "func golf_main() {"
	p.chunk(user)
	last := user.lines[len(user.lines)-1].Pos
	b.add(pos, "if golf_g.p == nil {")
	b.add(pos, "golf_main()")
	b.add(last, "}")
	b.add(last, "if golf_g.p != nil && golf_g.p.exit {") // Goexit: the others go on
	if p.clock {
		b.add(last, "golf_busy.Done()")
	}
	b.add(last, "select {")
	b.add(last, "}")
	b.add(last, "}")
	b.add(last, "golf_end()")
	b.add(last, "}")
	p.chunk(b)
}

// starts finds main and the functions named init.
func (p *prog) starts() (main *ast.FuncDecl, inits map[*load.Pkg][]*ast.FuncDecl) {
	inits = map[*load.Pkg][]*ast.FuncDecl{}
	p.inits = inits
	for _, k := range p.List {
		for _, file := range k.Files {
			for _, d := range file.Decls {
				fd, ok := d.(*ast.FuncDecl)
				if !ok || fd.Recv != nil {
					continue
				}
				switch fd.Name.Name {
				case "main":
					if k == p.user {
						main = fd
					}
				case "init":
					inits[k] = append(inits[k], fd)
				}
			}
		}
	}
	if main == nil && !p.opt.Tests {
		panic(&load.Error{Pos: p.Fset.Position(p.user.Files[0].Pos()), Msg: "no function main"})
	}
	return main, inits
}

// startOf lowers the functions named init of a package.
func (p *prog) startOf(k *load.Pkg, list []*ast.FuncDecl) {
	if p.started[k] != nil {
		return
	}
	p.started[k] = []string{}
	for _, d := range list {
		p.faulty(d)
		name := p.fresh("init")
		p.started[k] = append(p.started[k], name)
		p.function(&function{name: name, sig: p.Info.Defs[d.Name].(*types.Func).Signature(), body: d.Body, pos: d.Pos()})
	}
}

// collector is a function that collects, for go and defer.
func (p *prog) collector() string {
	p.imports["runtime"] = true
	return p.aux("golf", "gc", func(name string, b *buffer) {
		b.add(0, "func %s() {", name)
		b.add(0, "runtime.GC()")
		b.add(0, "}")
	})
}

// lastCollector is a function that collects once the other goroutines have had some turns, so that one that has just been
// started can come to where it blocks. In a test they have some time too, and those that are held go on.
func (p *prog) lastCollector() string {
	p.imports["runtime"] = true
	return p.aux("golf", "last gc", func(name string, b *buffer) {
		b.add(0, "func %s() {", name)
		if p.opt.Hold {
			b.add(0, "%s()", p.resume())
		}
		if p.opt.Tests && p.clock {
			b.add(0, "%s()", p.stdFunc("time", "settle"))
		}
		b.add(0, "for i := 0; i < 300; i++ {")
		b.add(0, "}")
		b.add(0, "runtime.GC()")
		b.add(0, "}")
	})
}

// initialisers writes golf_init: the initialisers in Go's order, the user's all, those of _std if they are asked for.
func (p *prog) initialisers() {
	pieces := map[*types.Initializer]*buffer{}
	for again := true; again; {
		p.drain()
		again = false
		for _, k := range p.List {
			for _, in := range k.Inits {
				if pieces[in] == nil && (k.User || p.anyGlobal(in.Lhs)) {
					pieces[in] = &buffer{}
					p.try(func() { pieces[in] = p.initPiece(in) })
					again = true
				}
			}
		}
		for _, k := range p.List {
			if list := p.inits[k]; len(list) > 0 && p.started[k] == nil && p.reached[k.Types] {
				p.startOf(k, list)
				again = true
			}
		}
		again = p.dispatchRound() || again
		again = p.formatRound() || again
		for _, c := range p.comparisons() {
			again = c.round(p) || again
		}
		again = again || len(p.queue) > 0
	}
	b := &buffer{}
	b.add(0, "func golf_init() {")
	p.zeroGlobals(b)
	for _, k := range p.initOrder() {
		for _, in := range k.Inits {
			if pieces[in] != nil {
				// a block for each, since each has names of its own
				b.add(0, "{")
				b.lines = append(b.lines, pieces[in].lines...)
				b.add(0, "}")
			}
		}
		for _, s := range p.started[k] {
			b.add(0, "%s()", s)
			b.add(0, "if golf_raised() {")
			b.add(0, "return")
			b.add(0, "}")
		}
	}
	b.add(0, "}")
	p.chunk(b)
}

// initOrder are the packages in the order of their initialisation. What the lowering itself needs comes first, then the
// standard library, of which the lowering loads a part after the user's packages.
func (p *prog) initOrder() []*load.Pkg {
	var order []*load.Pkg
	for _, wanted := range []func(k *load.Pkg) bool{
		func(k *load.Pkg) bool { return k == p.Loaded("golf") },
		func(k *load.Pkg) bool { return k != p.Loaded("golf") && !k.User },
		func(k *load.Pkg) bool { return k.User },
	} {
		for _, k := range p.List {
			if wanted(k) {
				order = append(order, k)
			}
		}
	}
	return order
}

func (p *prog) anyGlobal(vars []*types.Var) bool {
	for _, v := range vars {
		if p.globs[v] {
			return true
		}
	}
	return false
}

// zeroGlobals gives zero values to the globals that cannot have them in their declaration.
func (p *prog) zeroGlobals(b *buffer) {
	var globs []*types.Var
	for v := range p.globs {
		globs = append(globs, v)
	}
	sort.Slice(globs, func(i, j int) bool { return p.objName(globs[i]) < p.objName(globs[j]) })
	for _, v := range globs {
		if isRef(v.Type()) && native(v.Type()) == "" {
			b.add(0, "%s = %s", p.objName(v), p.zero(v.Type()))
		}
		if p.isBoxed(v) && p.zero(v.Type()) != "nil" {
			b.add(0, "%s.v = %s", p.objName(v), p.zero(v.Type()))
		}
	}
}

func (p *prog) drain() {
	for len(p.queue) > 0 {
		q := p.queue
		p.queue = nil
		for _, f := range q {
			f()
		}
	}
}

// isLetters: the variable has the characters that are printed, whose bytes nobody asks for.
func isLetters(v *types.Var) bool {
	return v.Pkg() != nil && v.Pkg().Path() == "golf" && v.Name() == "letters"
}

// initPiece lowers one initialiser of globals.
func (p *prog) initPiece(in *types.Initializer) *buffer {
	f := p.newFctx("init")
	f.at(in.Rhs.Pos())
	p.printsAlone = isLetters(in.Lhs[0])
	defer func() { p.printsAlone = false }()
	p.findTargets(in.Rhs, nil)
	if len(in.Lhs) == 1 && isIface(in.Lhs[0].Type()) {
		p.targets[in.Rhs] = in.Lhs[0].Type()
	}
	if len(in.Lhs) > 1 {
		parts, types := f.multi(in.Rhs, len(in.Lhs))
		for i, v := range in.Lhs {
			if v.Name() != "_" {
				f.emit("%s = %s", p.globalRef(v), f.convert(parts[i], types[i], v.Type()))
			}
		}
		return f.out
	}
	v := in.Lhs[0]
	switch {
	case v.Name() == "_":
		f.discard(f.rval(in.Rhs, v.Type()))
	case isRef(v.Type()) && native(v.Type()) == "":
		f.emit("%s", p.set(v.Type(), p.globalRef(v), f.rval(in.Rhs, v.Type())))
	case isRef(v.Type()): // a zero value of sync
	default:
		f.emit("%s = %s", p.globalRef(v), f.rval(in.Rhs, v.Type()))
	}
	return f.out
}
