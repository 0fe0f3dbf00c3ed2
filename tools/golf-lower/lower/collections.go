package lower

import (
	"fmt"
	"go/ast"
	"go/types"
	"strings"
)

// sliceText is the struct of slices that are appended to or sliced, a part of an array, with its functions. Such a struct
// is never changed, so that it is a value. N stands for its name and E for the type of the elements; "MOVE x <- y" is an
// assignment of an element; a line after "REF" is there if elements have storage of their own.
//
// N_ix is the index in the array, and one outside of it if it is outside of the slice. N_grow makes room for k more.
const sliceText = `
type N struct {
	a []E
	off int
	n int
	c int
}
func N_len(s *N) int {
	if s == nil {
		return 0
	}
	return s.n
}
func N_cap(s *N) int {
	if s == nil {
		return 0
	}
	return s.c
}
func N_arr(s *N) []E {
	if s == nil {
		return nil
	}
	return s.a
}
func N_off(s *N) int {
	if s == nil {
		return 0
	}
	return s.off
}
func N_ix(s *N, i int) int {
	if s == nil {
		return i
	}
	if i >= 0 && i < s.n {
		return s.off + i
	}
	if i >= 0 && i < len(s.a) {
		return len(s.a)
	}
	return i
}
func N_of(a []E) *N {
	return &N{a: a, n: len(a), c: len(a)}
}
func N_grow(s *N, k int) *N {
	m := N_len(s)
	if m+k <= N_cap(s) {
		return &N{a: s.a, off: s.off, n: m + k, c: s.c}
	}
	c := 2 * N_cap(s)
	if c < m+k {
		c = m + k
	}
	a := make([]E, c)
	for i := 0; i < m; i++ {
		a[i] = COPY s.a[s.off+i]
	}
	REF for i := m; i < c; i++ {
		REF a[i] = ZERO
	REF }
	return &N{a: a, n: m + k, c: c}
}
func N_add(s *N, x V) *N {
	t := N_grow(s, 1)
	SET t.a[t.off+t.n-1] <- x
	return t
}
func N_join(s *N, x *N) *N {
	k := N_len(x)
	if k == 0 {
		return s
	}
	t := N_grow(s, k)
	at := t.off + t.n - k
	if at <= x.off {
		for i := 0; i < k; i++ {
			MOVE t.a[at+i] <- x.a[x.off+i]
		}
	} else {
		for i := k - 1; i >= 0; i-- {
			MOVE t.a[at+i] <- x.a[x.off+i]
		}
	}
	return t
}
func N_slice(s *N, lo int, hi int) *N {
	if hi == -1 {
		hi = N_len(s)
	}
	return N_slice3(s, lo, hi, N_cap(s))
}
func N_slice3(s *N, lo int, hi int, top int) *N {
	if top < 0 || top > N_cap(s) || hi < 0 || hi > top || lo < 0 || lo > hi {
		panic("runtime error: slice bounds out of range")
	}
	if s == nil {
		return nil
	}
	return &N{a: s.a, off: s.off + lo, n: hi - lo, c: top - lo}
}`

func (p *prog) sliceStruct(elem types.Type) string {
	l := p.lt(elem)
	return p.aux("slice", p.valueKey(l, elem), func(n string, b *buffer) {
		zero := p.newCell(elem, p.zero(elem))
		for _, t := range strings.Split(strings.TrimPrefix(sliceText, "\n"), "\n") {
			t = strings.TrimLeft(t, "\t")
			t, ref := strings.CutPrefix(t, "REF ")
			if ref && !isRef(elem) && !p.boxes(elem) {
				continue
			}
			t = fill(t, n, map[string]string{"E": p.cell(elem), "V": l}) // before names of the user's come into it
			for _, word := range []string{"MOVE ", "SET "} {
				if x, ok := strings.CutPrefix(t, word); ok {
					t = p.moveText(elem, word, x)
				}
			}
			if dst, src, ok := strings.Cut(t, " = COPY "); ok {
				t = dst + " = " + p.newCell(elem, p.copyOf2(elem, p.slot(elem, src)))
			}
			b.add(0, "%s", strings.Replace(t, "= ZERO", "= "+zero, 1))
		}
	})
}

// moveText is an assignment to an element in a template, of another element or of a value.
func (p *prog) moveText(elem types.Type, word, text string) string {
	dst, src, _ := strings.Cut(text, " <- ")
	if isRef(elem) {
		return p.set2(elem, dst, src)
	}
	if word == "MOVE " {
		src = p.slot(elem, src)
	}
	return p.slot(elem, dst) + " = " + src
}

// fill puts names in place of those that stand for others in a template: name for N, and others for the words.
func fill(t, name string, others map[string]string) string {
	return replaceWords(t, func(w string) string {
		if x, ok := others[w]; ok {
			return x
		}
		if w == "N" || strings.HasPrefix(w, "N_") {
			return name + w[1:]
		}
		return w
	})
}

// grows: slices of this element type are parts of arrays.
// Those of golf.octet never are.
func (p *prog) grows(elem types.Type) bool {
	key := typeKey(elem)
	return key != "golf.octet" && (p.GrowAll || p.Growing[key])
}

// bytesArray is the array of a slice of bytes, and bytesOffset where the slice begins in it.
func (p *prog) bytesArray(x string) string {
	if !p.grows(types.Typ[types.Byte]) {
		return x
	}
	return fmt.Sprintf("%s_arr(%s)", p.sliceStruct(types.Typ[types.Byte]), x)
}

func (p *prog) bytesOffset(x string) string {
	if !p.grows(types.Typ[types.Byte]) {
		return "0"
	}
	return fmt.Sprintf("%s_off(%s)", p.sliceStruct(types.Typ[types.Byte]), x)
}

// copyOf2 and set2 are copyOf and set, but structs with types of sync are moved as they are:
// append copies them without a look at their state, as Go does.
func (p *prog) copyOf2(t types.Type, x string) string {
	if p.hasNative(t) {
		return x
	}
	return p.copyOf(t, x)
}

func (p *prog) set2(t types.Type, dst, src string) string {
	if p.hasNative(t) {
		return dst + " = " + src
	}
	return p.set(t, dst, src)
}

func (p *prog) hasNative(t types.Type) bool {
	if native(t) != "" {
		return true
	}
	switch u := under(t).(type) {
	case *types.Struct:
		for i := 0; i < u.NumFields(); i++ {
			if p.hasNative(u.Field(i).Type()) {
				return true
			}
		}
	case *types.Array:
		return p.hasNative(u.Elem())
	}
	return false
}

// suffix keeps structs and pointers to them apart, which are alike in the subset, and so elements in boxes.
func (p *prog) suffix(t types.Type) string {
	if isRef(t) || p.boxes(t) {
		return " value"
	}
	return ""
}

// valueKey is the key of a type of elements: a struct and a pointer to it are alike in the subset.
func (p *prog) valueKey(l string, t types.Type) string {
	if isArray(t) {
		return typeKey(t)
	}
	if isRef(t) && strings.HasPrefix(l, "*") {
		return l[1:]
	}
	return l + p.suffix(t)
}

// sliceOf makes a slice of an array of the subset.
func (p *prog) sliceOf(elem types.Type, arr string, n int) string {
	if !p.grows(elem) {
		return arr
	}
	return fmt.Sprintf("%s_of(%s)", p.sliceStruct(elem), arr)
}

// sliceLen is len of a slice.
func (p *prog) sliceLen(elem types.Type, s string) string {
	if !p.grows(elem) {
		return fmt.Sprintf("len(%s)", s)
	}
	return fmt.Sprintf("%s_len(%s)", p.sliceStruct(elem), s)
}

func (f *fctx) sliceExpr(e *ast.SliceExpr) string {
	p := f.p
	if p.isText(f.typeOf(e.X)) {
		return f.textSlice(e)
	}
	var elem types.Type
	arr := false
	switch u := under(deref(f.typeOf(e.X))).(type) {
	case *types.Slice:
		elem = u.Elem()
	case *types.Array:
		elem, arr = u.Elem(), true
	default:
		p.refuse("slicing of type %s", f.typeOf(e.X))
	}
	n := p.sliceStruct(elem)
	bound := func(b ast.Expr, none string) func() string {
		return func() string {
			if b == nil {
				return none
			}
			return f.expr(b)
		}
	}
	gs := []func() string{func() string { return f.expr(e.X) }, bound(e.Low, "0"), bound(e.High, "-1")}
	if e.Slice3 {
		gs = append(gs, bound(e.Max, ""))
	}
	xs := f.ordered(gs...)
	if arr && isPtr(f.typeOf(e.X)) {
		xs[0] = f.nilChecked(xs[0])
	}
	if f.unwinds() && f.user() {
		f.pinBounds(e, xs)
		length, room, what := fmt.Sprintf("%s_len(%s)", n, xs[0]), fmt.Sprintf("%s_cap(%s)", n, xs[0]), "capacity"
		if arr {
			length = fmt.Sprintf("len(%s)", xs[0])
			room, what = length, "length"
		}
		f.sliceBounds(e, xs, length, room, what)
	}
	if arr {
		xs[0] = fmt.Sprintf("%s_of(%s)", n, xs[0])
	}
	if xs[2] == "-1" && e.High != nil {
		p.refuse("this bound")
	}
	if e.High != nil {
		// -1 stands for the length
		if v := p.Info.Types[e.High].Value; v == nil {
			xs[2] = fmt.Sprintf("%s(%s)", p.stdFunc("golf", "Bound"), xs[2])
		}
	}
	if e.Slice3 {
		return fmt.Sprintf("%s_slice3(%s)", n, strings.Join(xs, ", "))
	}
	return fmt.Sprintf("%s_slice(%s)", n, strings.Join(xs, ", "))
}
