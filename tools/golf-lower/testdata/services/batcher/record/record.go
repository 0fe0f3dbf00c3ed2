// Package record writes records as lines.
package record

import (
	"bytes"
	"fmt"
	"slices"
	"strings"
)

// Record is a set of fields.
type Record struct {
	ID     int
	Fields map[string]string
}

// Encode writes the fields in the order of their names.
func (r Record) Encode(to *bytes.Buffer) {
	fmt.Fprintf(to, "%04d", r.ID)
	keys := make([]string, 0, len(r.Fields))
	for k := range r.Fields {
		keys = append(keys, k)
	}
	slices.Sort(keys)
	for _, k := range keys {
		v := r.Fields[k]
		if strings.ContainsAny(v, " \"\n") {
			v = fmt.Sprintf("%q", v)
		}
		fmt.Fprintf(to, " %s=%s", k, v)
	}
	to.WriteByte('\n')
}

// Lines encodes some records.
func Lines(list []Record) string {
	slices.SortFunc(list, func(a, b Record) int { return a.ID - b.ID })
	var buf bytes.Buffer
	for _, r := range list {
		r.Encode(&buf)
	}
	return buf.String()
}
