// Package origin finds on what the statements of a program can wait, and where these things were made: channels, locks,
// groups and conditions.
//
// It follows assignments without their order: what a variable may hold is all that is assigned to it somewhere. A field is one
// variable for all structs of its type, and the elements of a slice, a map or a channel are one variable for all that the
// variable of the container holds. So it may tell more places than there can be in a run. It tells none of a thing that may
// come from elsewhere, as from the standard library or out of an interface.
package origin

import (
	"go/ast"
	"go/token"
	"go/types"
	"slices"

	"golflower/analyse"
)

// Thing is something on which a statement can wait.
type Thing struct {
	Kind string      // how a goroutine waits on it, as golf tells it
	Text string      // how the statement names it
	Made []token.Pos // where it may have been made, in the order of the files
}

// Finder finds the things of a program.
type Finder struct {
	info    *types.Info
	waits   map[token.Pos][]operand // by the place of a statement
	simple  []ast.Stmt              // statements without others in them
	sources map[types.Object][]source
	values  []value                       // functions that may be called by a function value
	bodies  map[*types.Func]bool          // functions of the files
	methods map[string][]*types.Signature // of the files, by their names
	params  map[types.Object]bool         // parameters
}

// value is a function that may be a value of a type.
type value struct {
	sig *types.Signature // with the variables of its body
	t   types.Type
}

// operand is an operand of a statement that can block.
type operand struct {
	kind string
	expr ast.Expr
}

// source is an expression whose value is assigned to a variable, or to what the variable holds so many levels deeper. If the
// value is an element of the expression's, deeper counts its levels. Without an expression the value comes from elsewhere.
type source struct {
	level  int
	expr   ast.Expr
	deeper int
}

// New looks at the files of a program.
func New(info *types.Info, files []*ast.File) *Finder {
	f := &Finder{info: info, waits: map[token.Pos][]operand{}, sources: map[types.Object][]source{},
		bodies: map[*types.Func]bool{}, methods: map[string][]*types.Signature{}, params: map[types.Object]bool{}}
	for _, visit := range []func(ast.Node){f.functions, f.assignments, f.note} {
		for _, file := range files {
			ast.Inspect(file, func(n ast.Node) bool {
				visit(n)
				return true
			})
		}
	}
	return f
}

// At returns the things on which the statement at a place can wait. The place may be in a simple statement.
func (f *Finder) At(pos token.Pos) []Thing {
	if !pos.IsValid() {
		return nil
	}
	if _, ok := f.waits[pos]; !ok {
		pos = f.around(pos)
	}
	var list []Thing
	for _, o := range f.waits[pos] {
		list = append(list, Thing{o.kind, text(o.expr), f.made(o.expr)})
	}
	return list
}

// around is the place of the innermost simple statement around a place.
func (f *Finder) around(pos token.Pos) token.Pos {
	found := token.NoPos
	for _, s := range f.simple {
		if s.Pos() <= pos && pos < s.End() && s.Pos() > found {
			found = s.Pos()
		}
	}
	return found
}

// longest is the length of an expression that is told.
const longest = 40

// text is how an expression is written, without what a function literal does.
func text(e ast.Expr) string {
	if s := types.ExprString(e); len(s) <= longest {
		return s
	}
	return ""
}

// mostLevels bounds containers in containers.
const mostLevels = 4

// visit is a variable, or what it holds so many levels deeper.
type visit struct {
	o     types.Object
	level int
}

// search is one search for the places where a thing was made.
type search struct {
	*Finder
	seen      map[visit]bool
	made      []token.Pos
	elsewhere bool // it may also come from elsewhere
}

// made are the places where the value of an expression may have been made, nil if it may come from elsewhere.
func (f *Finder) made(e ast.Expr) []token.Pos {
	s := &search{Finder: f, seen: map[visit]bool{}}
	s.thing(e)
	if s.elsewhere {
		return nil
	}
	slices.Sort(s.made)
	return slices.Compact(s.made)
}

// thing looks for where a thing was made: a value of a type that is no pointer is made with the variable, or with the struct,
// that it is in.
func (s *search) thing(e ast.Expr) {
	t := s.info.TypeOf(e)
	if t == nil {
		return
	}
	switch t.Underlying().(type) {
	case *types.Chan, *types.Pointer:
		s.value(e, 0)
		return
	}
	switch x := ast.Unparen(e).(type) {
	case *ast.Ident:
		if o := s.info.ObjectOf(x); o != nil {
			s.made = append(s.made, o.Pos())
		}
	case *ast.SelectorExpr:
		s.thing(x.X)
	case *ast.IndexExpr:
		s.thing(x.X)
	case *ast.StarExpr:
		s.value(x.X, 0)
	default:
		s.value(e, 0)
	}
}

// value looks for where the value of an expression was made, or what it holds so many levels deeper.
func (s *search) value(e ast.Expr, level int) {
	switch x := ast.Unparen(e).(type) {
	case *ast.Ident:
		s.variable(s.info.ObjectOf(x), level)
	case *ast.SelectorExpr:
		s.variable(s.info.ObjectOf(x.Sel), level)
	case *ast.IndexExpr:
		if s.info.Types[x.X].IsValue() {
			s.value(x.X, level+1)
		}
	case *ast.SliceExpr:
		s.value(x.X, level)
	case *ast.StarExpr:
		s.value(x.X, level)
	case *ast.UnaryExpr:
		switch x.Op {
		case token.ARROW:
			s.value(x.X, level+1)
		case token.AND:
			s.address(x.X)
		}
	case *ast.CompositeLit:
		s.literal(x, level)
	case *ast.CallExpr:
		s.call(x, level)
	default:
		s.elsewhere = true
	}
}

// address looks for where the variable was made that & is of.
func (s *search) address(e ast.Expr) {
	if lit, ok := ast.Unparen(e).(*ast.CompositeLit); ok {
		s.literal(lit, 0)
		return
	}
	s.thing(e)
}

// literal is made where it is written; deeper are its elements.
func (s *search) literal(lit *ast.CompositeLit, level int) {
	if level == 0 {
		s.made = append(s.made, lit.Pos())
		return
	}
	for _, e := range lit.Elts {
		if kv, ok := e.(*ast.KeyValueExpr); ok {
			e = kv.Value
		}
		s.value(e, level-1)
	}
}

// variable looks at all that is assigned to a variable.
func (s *search) variable(o types.Object, level int) {
	o = declared(o)
	v := visit{o, level}
	if o == nil || level > mostLevels || s.seen[v] {
		return
	}
	s.seen[v] = true
	s.elsewhere = s.elsewhere || s.params[o] && len(s.sources[o]) == 0
	for _, src := range s.sources[o] {
		switch {
		case src.expr == nil:
			s.elsewhere = true
		case src.level <= level:
			s.value(src.expr, level-src.level+src.deeper)
		}
	}
}

// declared is the variable that an instance of a generic type or function has in common with the others.
func declared(o types.Object) types.Object {
	if v, ok := o.(*types.Var); ok {
		return v.Origin()
	}
	return o
}

// call looks at the results of a call.
func (s *search) call(c *ast.CallExpr, level int) {
	if s.info.Types[c.Fun].IsType() {
		s.value(c.Args[0], level)
		return
	}
	if id, ok := ast.Unparen(c.Fun).(*ast.Ident); ok {
		if b, ok := s.info.Uses[id].(*types.Builtin); ok {
			s.builtin(b.Name(), c, level)
			return
		}
	}
	fn := analyse.Callee(s.info, c)
	if fn != nil && fn.FullName() == "sync.NewCond" {
		s.made = append(s.made, c.Pos())
		return
	}
	called := s.called(c, fn)
	s.elsewhere = s.elsewhere || len(called) == 0
	for _, sig := range called {
		for i := range sig.Results().Len() {
			s.variable(sig.Results().At(i), level)
		}
	}
}

func (s *search) builtin(name string, c *ast.CallExpr, level int) {
	switch {
	case name == "append":
		s.value(c.Args[0], level)
		for _, a := range c.Args[1:] {
			switch {
			case c.Ellipsis.IsValid():
				s.value(a, level)
			case level > 0:
				s.value(a, level-1)
			}
		}
	case (name == "make" || name == "new") && level == 0:
		s.made = append(s.made, c.Pos())
	}
}

// called are the signatures of the functions of the files that a call may call. fn is what it names, nil for a value.
func (f *Finder) called(c *ast.CallExpr, fn *types.Func) []*types.Signature {
	switch {
	case fn == nil:
		return f.ofValue(c)
	case isInterface(fn):
		return f.methods[fn.Name()]
	case f.bodies[fn.Origin()]:
		return []*types.Signature{fn.Origin().Signature()}
	}
	return nil
}

// isInterface: the function is a method of an interface.
func isInterface(fn *types.Func) bool {
	recv := fn.Signature().Recv()
	return recv != nil && types.IsInterface(recv.Type())
}

// ofValue are the signatures of the functions that the call of a function value may call.
func (f *Finder) ofValue(c *ast.CallExpr) []*types.Signature {
	if lit, ok := ast.Unparen(c.Fun).(*ast.FuncLit); ok {
		if sig := f.signature(lit); sig != nil {
			return []*types.Signature{sig}
		}
	}
	t := f.info.TypeOf(c.Fun)
	var list []*types.Signature
	for _, v := range f.values {
		if t != nil && types.Identical(v.t, t.Underlying()) {
			list = append(list, v.sig)
		}
	}
	return list
}

// signature is the signature of a literal, whose parameters are the variables of its body.
func (f *Finder) signature(lit *ast.FuncLit) *types.Signature {
	sig, _ := f.info.TypeOf(lit).(*types.Signature)
	return sig
}
