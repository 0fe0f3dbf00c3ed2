// Package lru keeps the values that were used last.
package lru

import "container/list"

type entry[K comparable, V any] struct {
	key   K
	value V
}

// List has at most Size values. It is not for several goroutines.
type List[K comparable, V any] struct {
	Size    int
	Evicted func(K, V) // called with each value that goes, if it is not nil
	order   list.List
	places  map[K]*list.Element
}

// Get returns a value, which is then the one that was used last.
func (l *List[K, V]) Get(key K) (value V, ok bool) {
	e, ok := l.places[key]
	if !ok {
		return value, false
	}
	l.order.MoveToFront(e)
	return e.Value.(*entry[K, V]).value, true
}

// Put adds or replaces a value.
func (l *List[K, V]) Put(key K, value V) {
	if e, ok := l.places[key]; ok {
		e.Value.(*entry[K, V]).value = value
		l.order.MoveToFront(e)
		return
	}
	if l.places == nil {
		l.places = make(map[K]*list.Element)
	}
	l.places[key] = l.order.PushFront(&entry[K, V]{key, value})
	if l.order.Len() > l.Size {
		l.drop(l.order.Back())
	}
}

// Delete takes a value away.
func (l *List[K, V]) Delete(key K) bool {
	e, ok := l.places[key]
	if ok {
		l.drop(e)
	}
	return ok
}

func (l *List[K, V]) drop(e *list.Element) {
	x := l.order.Remove(e).(*entry[K, V])
	delete(l.places, x.key)
	if l.Evicted != nil {
		l.Evicted(x.key, x.value)
	}
}

// Len counts the values.
func (l *List[K, V]) Len() int { return l.order.Len() }

// All goes over the values, the one that was used last first.
func (l *List[K, V]) All() func(yield func(K, V) bool) {
	return func(yield func(K, V) bool) {
		for e := l.order.Front(); e != nil; e = e.Next() {
			x := e.Value.(*entry[K, V])
			if !yield(x.key, x.value) {
				return
			}
		}
	}
}
