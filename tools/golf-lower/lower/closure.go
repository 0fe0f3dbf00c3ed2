package lower

import (
	"fmt"
	"go/ast"
	"go/types"
	"strings"

	"golflower/analyse"
)

// fnInfo is the struct of the function values of one signature (defunctionalization):
// a tag, and for each function that can be such a value a pointer to its environment.
type fnInfo struct {
	name    string
	params  []string
	result  string
	members []*fnMember
	byKey   map[string]*fnMember
}

// fnMember is one function that can be a value of the signature.
type fnMember struct {
	tag  int
	env  string                                 // the environment's struct, "" for none
	call func(env string, args []string) string // the call of it
}

func (p *prog) fnStruct(sig *types.Signature) *fnInfo {
	key := typeKey(sig)
	if fi, ok := p.fns[key]; ok {
		return fi
	}
	fi := &fnInfo{name: p.fresh("fn"), byKey: map[string]*fnMember{}}
	p.fns[key] = fi // a function type may contain itself
	for i := 0; i < sig.Params().Len(); i++ {
		fi.params = append(fi.params, p.lt(sig.Params().At(i).Type()))
	}
	fi.result = p.result(sig)
	p.fnList = append(p.fnList, fi)
	return fi
}

// member finds or adds a function to a signature.
func (fi *fnInfo) member(key string, make func() *fnMember) *fnMember {
	m := fi.byKey[key]
	if m == nil {
		m = make()
		m.tag = len(fi.members) + 1
		fi.members = append(fi.members, m)
		fi.byKey[key] = m
	}
	return m
}

func (fi *fnInfo) value(m *fnMember, env string) string {
	if m.env == "" {
		return fmt.Sprintf("(&%s{tag: %d})", fi.name, m.tag)
	}
	e := fmt.Sprintf("e%d: (&%s{%s})", m.tag, m.env, env)
	if g := (m.tag - 1) / group; g > 0 {
		e = fmt.Sprintf("m%d: (&%s_m%d{%s})", g, fi.name, g, e)
	}
	return fmt.Sprintf("(&%s{tag: %d, %s})", fi.name, m.tag, e)
}

// lift gives the name of the function that a literal becomes.
func (f *fctx) lift(lit *ast.FuncLit) (string, *analyse.Lit) {
	p := f.p
	li := p.Lits[lit]
	name, ok := p.lifted[lit][p.subKey]
	if !ok {
		name = p.fresh(f.name + "_func")
		if p.lifted[lit] == nil {
			p.lifted[lit] = map[string]string{}
		}
		p.lifted[lit][p.subKey] = name
		sig := under(p.Info.TypeOf(lit)).(*types.Signature)
		for _, v := range li.Free {
			f.varName(v)
		}
		fn := &function{name: name, caps: li.Free, sig: sig, body: lit.Body, pos: lit.Pos(), test: li.Test}
		p.later(func() { p.try(func() { p.function(fn) }) })
	}
	return name, li
}

func (p *prog) capNames(li *analyse.Lit) []string {
	var r []string
	for _, v := range li.Free {
		r = append(r, p.captured(v))
	}
	return r
}

// closure is a literal as a value.
func (f *fctx) closure(lit *ast.FuncLit) string {
	p := f.p
	name, li := f.lift(lit)
	fi := p.fnStruct(under(p.typ(lit)).(*types.Signature))
	m := fi.member("lit "+name, func() *fnMember {
		m := &fnMember{}
		caps := p.capNames(li)
		if len(caps) > 0 {
			m.env = p.fresh("env_" + name)
			b := &buffer{}
			b.add(0, "type %s struct {", m.env)
			for i, v := range li.Free {
				b.add(0, "%s %s", caps[i], p.varType(v))
			}
			b.add(0, "}")
			p.decls.lines = append(p.decls.lines, b.lines...)
		}
		m.call = func(env string, args []string) string {
			var all []string
			for _, c := range caps {
				all = append(all, env+"."+c)
			}
			return fmt.Sprintf("%s(%s)", name, strings.Join(append(all, args...), ", "))
		}
		return m
	})
	var fs []string
	for _, c := range p.capNames(li) {
		fs = append(fs, c+": "+c)
	}
	return fi.value(m, strings.Join(fs, ", "))
}

// funcValue is a function of the file as a value.
func (f *fctx) funcValue(fn *types.Func, args []types.Type, sig *types.Signature) string {
	p := f.p
	name := p.funcRef(fn, args)
	fi := p.fnStruct(sig)
	m := fi.member("func "+name, func() *fnMember {
		return &fnMember{call: func(_ string, args []string) string {
			return fmt.Sprintf("%s(%s)", name, strings.Join(args, ", "))
		}}
	})
	return fi.value(m, "")
}

// methodValue is x.m as a value: the receiver is evaluated now.
func (f *fctx) methodValue(e *ast.SelectorExpr, s *selection, sig *types.Signature) string {
	p := f.p
	fi := p.fnStruct(sig)
	recv, lt, call := f.boundMethod(e, s)
	if lt == anyText {
		recv = f.notNil(recv)
	}
	// a method with a value receiver has a copy of its own at each call
	own := func(x string) string { return x }
	if t := s.obj.(*types.Func).Signature().Recv().Type(); !isIface(t) && isRef(t) {
		own = func(x string) string { return p.copyOf(t, x) }
		own("x") // so that the copying function is written now
	}
	m := fi.member("bound "+call("R", []string{"A"})+" "+lt, func() *fnMember {
		m := &fnMember{env: p.fresh("env_bound")}
		p.decls.add(0, "type %s struct {", m.env)
		p.decls.add(0, "recv %s", lt)
		p.decls.add(0, "}")
		m.call = func(env string, args []string) string { return call(own(env+".recv"), args) }
		return m
	})
	return fi.value(m, "recv: "+recv)
}

// methodExpr is T.m as a value: the receiver is the first argument.
func (f *fctx) methodExpr(e *ast.SelectorExpr, s *selection, sig *types.Signature) string {
	p := f.p
	fi := p.fnStruct(sig)
	key := "expr " + typeKey(s.recv) + " " + s.obj.Name()
	for _, a := range p.typeArgs(e) {
		key += "[" + typeKey(a) + "]"
	}
	m := fi.member(key, func() *fnMember {
		sel := &method{fn: s.obj.(*types.Func), index: s.index, args: p.methodArgs(s.obj.(*types.Func), e)}
		p.callOn("x", s.recv, sel, nil) // what it needs is lowered now
		return &fnMember{call: func(_ string, args []string) string { return p.callOn(args[0], s.recv, sel, args[1:]) }}
	})
	return fi.value(m, "")
}

// applies writes the structs of the signatures and the functions that call them by the tag.
func (p *prog) applies() {
	b := &p.decls
	for i := 0; i < len(p.fnList); i++ {
		fi := p.fnList[i]
		b.add(0, "type %s struct {", fi.name)
		b.add(0, "tag int")
		var more []*buffer
		for j, m := range fi.members {
			g := j / group
			if g > 0 && j%group == 0 {
				b.add(0, "m%d *%s_m%d", g, fi.name, g)
				k := &buffer{}
				k.add(0, "type %s_m%d struct {", fi.name, g)
				more = append(more, k)
			}
			if m.env == "" {
				continue
			}
			if g > 0 {
				more[g-1].add(0, "e%d *%s", m.tag, m.env)
			} else {
				b.add(0, "e%d *%s", m.tag, m.env)
			}
		}
		b.add(0, "}")
		for _, k := range more {
			k.add(0, "}")
			b.lines = append(b.lines, k.lines...)
		}
		params := []string{"fv *" + fi.name}
		var args []string
		for i, l := range fi.params {
			params = append(params, fmt.Sprintf("a%d %s", i, l))
			args = append(args, fmt.Sprintf("a%d", i))
		}
		b.add(0, "%s {", strings.TrimSpace(fmt.Sprintf("func %s_call(%s) %s", fi.name, strings.Join(params, ", "), fi.result)))
		if p.unwind {
			b.add(0, "if fv == nil {")
			b.add(0, "golf_raise(%s, 0)", p.nilError())
			b.add(0, "%s", strings.TrimSpace("return "+p.nothing(fi.result)))
			b.add(0, "}")
		}
		if len(fi.members) == 0 {
			b.add(0, "_ = fv.tag")
		} else {
			b.add(0, "tag := fv.tag")
		}
		for _, m := range fi.members {
			b.add(0, "if tag == %d {", m.tag)
			e := fmt.Sprintf("fv.e%d", m.tag)
			if g := (m.tag - 1) / group; g > 0 {
				e = fmt.Sprintf("fv.m%d.e%d", g, m.tag)
			}
			c := m.call(e, args)
			if fi.result != "" {
				b.add(0, "return %s", c)
			} else {
				b.add(0, "%s", c)
				b.add(0, "return")
			}
			b.add(0, "}")
		}
		b.add(0, "panic(\"no such function value\")")
		b.add(0, "}")
	}
}
