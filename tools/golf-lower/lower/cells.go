package lower

import (
	"fmt"
	"go/types"
	"strings"
)

// The elements of slices and arrays. A struct or an array as an element has storage of its own, to which a pointer can refer.
// If the address of another element is taken somewhere, all elements of its type are in boxes, as variables are whose address
// is taken.

// boxes: elements of the type are in boxes.
func (p *prog) boxes(elem types.Type) bool { return !isRef(elem) && p.BoxedElems[typeKey(elem)] }

// cell is the type of the subset that holds an element.
func (p *prog) cell(elem types.Type) string {
	l := p.lt(elem)
	if p.boxes(elem) {
		return "*" + p.box(l)
	}
	return l
}

// slot is the value in a cell.
func (p *prog) slot(elem types.Type, cell string) string {
	if p.boxes(elem) {
		return cell + ".v"
	}
	return cell
}

// newCell is a cell with a value of its own.
func (p *prog) newCell(elem types.Type, value string) string {
	if p.boxes(elem) {
		return fmt.Sprintf("(&%s{v: %s})", p.box(p.lt(elem)), value)
	}
	return value
}

// arrayOf is an array of the subset with some values.
func (p *prog) arrayOf(elem types.Type, values []string) string {
	cells := make([]string, len(values))
	for i, x := range values {
		cells[i] = p.newCell(elem, x)
	}
	return fmt.Sprintf("[]%s{%s}", p.cell(elem), strings.Join(cells, ", "))
}

// at is element i of a slice in a variable, where i is known to be inside of it.
func (p *prog) at(elem types.Type, s, i string) string {
	if p.grows(elem) {
		return p.slot(elem, fmt.Sprintf("%s.a[%s.off+%s]", s, s, i))
	}
	return p.slot(elem, s+"["+i+"]")
}
