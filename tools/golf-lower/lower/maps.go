package lower

import (
	"fmt"
	"go/types"
	"strings"
)

// mapText is a map type with its functions: keys and values in the order in which they came. If there are more than 8 and
// keys have a hash, a table has the place of each key: its number from 1 on, 0 for a free place, -1 for one whose key is
// gone. Without a table the entries behind a deleted one move up.
//
// N stands for the name of the type, K and V for the types of keys and values, EQUAL for the comparison of a key with k, HASH
// for the hash of k, SIZE for the function that gives the size of a table. A line after "TABLE" is there if keys have a hash.
// N_slot is the place of a key in the table, or the free one where it would be. N_keys has the keys of now, for range.
//
// Two things are so only for keys that may hold floats; their lines are after "ODD", and SELF compares k with itself. A key
// that is put again replaces the one that equals it, as -0 does 0. A key that is not equal to itself is found by its number
// among such keys, by N_odd: none of them can be deleted.
const mapText = `
type N struct {
	keys []K
	vals []V
	gone []bool
	top int
	n int
	TABLE table []int
}
func N_new() *N {
	return &N{}
}
func N_len(m *N) int {
	if m == nil {
		return 0
	}
	return m.n
}
TABLE func N_slot(m *N, k K) int {
	TABLE t := m.table
	TABLE j := HASH % len(t)
	TABLE if j < 0 {
		TABLE j += len(t)
	TABLE }
	TABLE for t[j] != 0 {
		TABLE i := t[j] - 1
		TABLE if i >= 0 && EQUAL {
			TABLE return j
		TABLE }
		TABLE j++
		TABLE if j == len(t) {
			TABLE j = 0
		TABLE }
	TABLE }
	TABLE return j
TABLE }
func N_find(m *N, k K) int {
	if m == nil {
		return -1
	}
	TABLE if m.table != nil {
		TABLE return m.table[N_slot(m, k)] - 1
	TABLE }
	for i := 0; i < m.top; i++ {
		if EQUAL {
			return i
		}
	}
	return -1
}
func N_at(m *N, i int) V {
	if i < 0 {
		return ZERO
	}
	return m.vals[i]
}
func N_get(m *N, k K) V {
	return N_at(m, N_find(m, k))
}
func N_grow(m *N) {
	if m.n >= 65520 {
		panic("lowering: a map with more than 65520 keys")
	}
	c := 2 * m.n
	if c < 8 {
		c = 8
	}
	if c > 65520 {
		c = 65520
	}
	ks := make([]K, c)
	vs := make([]V, c)
	at := 0
	for i := 0; i < m.top; i++ {
		if m.gone == nil || !m.gone[i] {
			ks[at] = m.keys[i]
			vs[at] = m.vals[i]
			at++
		}
	}
	m.keys = ks
	m.vals = vs
	m.gone = nil
	m.top = at
	TABLE m.table = nil
	TABLE if c > 8 {
		TABLE t := make([]int, SIZE(c))
		TABLE m.table = t
		TABLE for i := 0; i < at; i++ {
			TABLE k := ks[i]
			TABLE j := HASH % len(t)
			TABLE if j < 0 {
				TABLE j += len(t)
			TABLE }
			TABLE for t[j] != 0 {
				TABLE j++
				TABLE if j == len(t) {
					TABLE j = 0
				TABLE }
			TABLE }
			TABLE t[j] = i + 1
		TABLE }
	TABLE }
}
func N_put(m *N, k K, v V) {
	if m == nil {
		panic("assignment to entry in nil map")
	}
	TABLE if m.table != nil {
		TABLE j := N_slot(m, k)
		TABLE i := m.table[j] - 1
		TABLE if i >= 0 {
			TABLE ODD m.keys[i] = k
			TABLE m.vals[i] = v
			TABLE return
		TABLE }
		TABLE if m.top == len(m.keys) {
			TABLE N_grow(m)
			TABLE N_put(m, k, v)
			TABLE return
		TABLE }
		TABLE m.keys[m.top] = k
		TABLE m.vals[m.top] = v
		TABLE m.top++
		TABLE m.n++
		TABLE m.table[j] = m.top
		TABLE return
	TABLE }
	i := N_find(m, k)
	if i >= 0 {
		ODD m.keys[i] = k
		m.vals[i] = v
		return
	}
	if m.top == len(m.keys) {
		N_grow(m)
		N_put(m, k, v)
		return
	}
	m.keys[m.top] = k
	m.vals[m.top] = v
	m.top++
	m.n++
}
func N_with(m *N, k K, v V) *N {
	N_put(m, k, v)
	return m
}
func N_delete(m *N, k K) {
	i := N_find(m, k)
	if i < 0 {
		return
	}
	m.n--
	ks := make([]K, 1)
	vs := make([]V, 1)
	TABLE if m.table != nil {
		TABLE m.table[N_slot(m, k)] = -1
		TABLE if m.gone == nil {
			TABLE m.gone = make([]bool, len(m.keys))
		TABLE }
		TABLE m.gone[i] = true
		TABLE m.keys[i] = ks[0]
		TABLE m.vals[i] = vs[0]
		TABLE return
	TABLE }
	m.top--
	for i < m.top {
		m.keys[i] = m.keys[i+1]
		m.vals[i] = m.vals[i+1]
		i++
	}
	m.keys[m.top] = ks[0]
	m.vals[m.top] = vs[0]
}
func N_clear(m *N) {
	if m != nil {
		m.keys = nil
		m.vals = nil
		m.gone = nil
		TABLE m.table = nil
		m.top = 0
		m.n = 0
	}
}
func N_keys(m *N) []K {
	n := N_len(m)
	ks := make([]K, n)
	if n == 0 {
		return ks
	}
	at := 0
	for i := 0; i < m.top; i++ {
		if m.gone == nil || !m.gone[i] {
			ks[at] = m.keys[i]
			at++
		}
	}
	return ks
}
ODD func N_odd(m *N, k K, j int) int {
	ODD if SELF {
		ODD return -1
	ODD }
	ODD for i := 0; i < m.top; i++ {
		ODD if m.gone == nil || !m.gone[i] {
			ODD k = m.keys[i]
			ODD if !(SELF) {
				ODD if j == 0 {
					ODD return i
				ODD }
				ODD j--
			ODD }
		ODD }
	ODD }
	ODD return -1
ODD }`

func (p *prog) mapStruct(m *types.Map) string {
	k, v := p.lt(m.Key()), p.lt(m.Elem())
	return p.aux("map", p.valueKey(k, m.Key())+","+p.valueKey(v, m.Elem())+keySuffix(m.Key()), func(n string, b *buffer) {
		equal := p.equal(m.Key(), "m.keys[i]", "k")
		zero := p.zero(m.Elem())
		words := map[string]string{"K": k, "V": v}
		self := p.equal(m.Key(), "k", "k")
		hash, size := p.hash(m.Key(), "k"), ""
		if hash != "" {
			size = p.stdFunc("golf", "TableSize")
		}
		for _, t := range strings.Split(strings.TrimPrefix(mapText, "\n"), "\n") {
			t = strings.TrimLeft(t, "\t")
			t, table := strings.CutPrefix(t, "TABLE ")
			if table && hash == "" {
				continue
			}
			t, odd := strings.CutPrefix(t, "ODD ")
			if odd && !holdsFloat(m.Key()) {
				continue
			}
			t = fill(t, n, words) // before names of the user's come into it
			t = strings.Replace(strings.Replace(t, "HASH", hash, 1), "SIZE", size, 1)
			t = strings.Replace(strings.Replace(t, "EQUAL", bare(equal), 1), "SELF", bare(self), 1)
			b.add(0, "%s", strings.Replace(t, "ZERO", zero, 1))
		}
	})
}

// holdsFloat: a value of the type may hold a float, also in an interface.
func holdsFloat(t types.Type) bool {
	switch u := under(t).(type) {
	case *types.Basic:
		return u.Info()&types.IsFloat != 0
	case *types.Interface:
		return true
	case *types.Array:
		return holdsFloat(u.Elem())
	case *types.Struct:
		for i := range u.NumFields() {
			if holdsFloat(u.Field(i).Type()) {
				return true
			}
		}
	}
	return false
}

// keySuffix tells keys apart that are held alike and compared otherwise.
func keySuffix(t types.Type) string {
	switch {
	case isIface(t):
		return " any"
	case isFloat(t):
		return " " + under(t).String()
	}
	return ""
}

func (p *prog) mapFunc(m *types.Map, f string) string { return p.mapStruct(m) + "_" + f }

// hash is the hash of a key, "" if there is none: pointers and channels have no numbers.
func (p *prog) hash(t types.Type, x string) string {
	switch u := under(t).(type) {
	case *types.Basic:
		switch {
		case p.isText(t):
			return p.golf("Hash", x)
		case u.Info()&types.IsInteger != 0:
			return x
		}
	case *types.Struct:
		if !isStruct(t) || native(t) != "" {
			return ""
		}
		s := p.structOf(t)
		var parts []string
		for i, f := range s.fields {
			if f.v.Name() == "_" {
				continue
			}
			if h := p.hash(f.v.Type(), "k."+p.fieldRef(t, i)); h != "" {
				parts = append(parts, h)
			}
		}
		if len(parts) == 0 {
			return ""
		}
		f := p.aux("hash", s.name, func(name string, b *buffer) {
			b.add(0, "func %s(k *%s) int {", name, s.name)
			b.add(0, "h := 0")
			for _, h := range parts {
				b.add(0, "h = h*1000003 + %s", h)
			}
			b.add(0, "return h")
			b.add(0, "}")
		})
		return fmt.Sprintf("%s(%s)", f, x)
	case *types.Array:
		if p.hash(u.Elem(), p.slot(u.Elem(), "k[i]")) == "" {
			return ""
		}
		f := p.aux("hash", "array "+typeKey(t), func(name string, b *buffer) {
			b.add(0, "func %s(k %s) int {", name, p.lt(t))
			b.add(0, "h := 0")
			b.add(0, "for i := 0; i < len(k); i++ {")
			b.add(0, "h = h*1000003 + %s", p.hash(u.Elem(), p.slot(u.Elem(), "k[i]")))
			b.add(0, "}")
			b.add(0, "return h")
			b.add(0, "}")
		})
		return fmt.Sprintf("%s(%s)", f, x)
	}
	return ""
}
