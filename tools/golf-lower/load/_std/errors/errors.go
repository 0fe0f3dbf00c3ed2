// Package errors: what Go does by reflection; the rest is Go's own.
package errors

// comparable says whether == does not fail for what err holds; it is lowered where it is called.
func isComparable(err error) bool

// Is reports whether an error in the tree of err matches target.
func Is(err, target error) bool {
	if err == nil || target == nil {
		return err == target
	}
	return is(err, target, isComparable(target))
}

// As finds an error of a type in the tree of err; it is lowered where it is called.
func As(err error, target any) bool

// inside are the errors right inside of an error.
func inside(err error) []error {
	switch x := err.(type) {
	case interface{ Unwrap() error }:
		if u := x.Unwrap(); u != nil {
			return []error{u}
		}
	case interface{ Unwrap() []error }:
		return x.Unwrap()
	}
	return nil
}
