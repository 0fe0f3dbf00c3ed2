// Package time: a clock of its own. A goroutine, the clock, runs as long as somebody waits for a time. By default time
// passes only while all other goroutines wait, and then to the next event at once. By the loose clock it passes in each
// round of the clock, whoever runs: a part of what is left to the next event, so that long times take little longer than
// short ones. Either way the order of the events is kept.
package time

import "sync"

// event is something that the clock does at its time. One that was taken back does nothing.
type event struct {
	at     int64
	wake   chan struct{} // closed
	times  chan Time     // gets the time, if there is room
	f      func()        // started
	call   int           // the number of the call of AfterFunc that has given it
	period int64         // of a ticker
	moment *moment       // in which it is queued
	prev   *event        // of the same moment
	next   *event
}

// moment has the events of one time, in the order in which they were inserted. One without events is passed over.
type moment struct {
	at    int64
	first *event
	last  *event
	next  *moment
}

const step = 20000 // nanoseconds that a round of the loose clock takes at least
const part = 128   // a round of it takes this part of what is left to the next event
const look = 1000  // nanoseconds that a look at the clock takes

var (
	mu      sync.Mutex
	now     int64 = 1000000000000000000
	head    *moment
	tail    *moment
	running bool
)

// insert puts an event into the queue; mu is held.
func insert(e *event) {
	m := momentAt(e.at)
	e.moment = m
	e.next = nil
	e.prev = m.last
	if m.last == nil {
		m.first = e
	} else {
		m.last.next = e
	}
	m.last = e
	if !running {
		running = true
		go clock()
	}
}

// momentAt finds or makes a moment. Most events come behind all others, or right at the front.
func momentAt(at int64) *moment {
	if head == nil || at < head.at {
		head = &moment{at: at, next: head}
		if head.next == nil {
			tail = head
		}
		return head
	}
	if at > tail.at {
		tail.next = &moment{at: at}
		tail = tail.next
		return tail
	}
	m := tail
	if at < tail.at {
		m = head
		for m.next.at <= at {
			m = m.next
		}
	}
	if m.at < at {
		m.next = &moment{at: at, next: m.next}
		m = m.next
	}
	return m
}

// remove takes an event back; false if it has been; mu is held.
func remove(e *event) bool {
	m := e.moment
	if m == nil {
		return false
	}
	e.moment = nil
	if e.prev == nil {
		m.first = e.next
	} else {
		e.prev.next = e.next
	}
	if e.next == nil {
		m.last = e.prev
	} else {
		e.next.prev = e.prev
	}
	for head != nil && head.first == nil {
		head = head.next
	}
	return true
}

func start(e *event, d Duration) {
	mu.Lock()
	if d < 0 {
		d = 0
	}
	e.at = now + int64(d)
	insert(e)
	mu.Unlock()
}

// These are lowered where they are called.
func loose() bool               // the loose clock is asked for
func quiet()                    // waits until all other goroutines wait
func launch(call int, f func()) // starts f, at the line of the call

// clock lets time pass.
func clock() {
	for {
		if loose() {
			round()
		} else {
			quiet()
		}
		mu.Lock()
		if !loose() && head != nil && head.at > now {
			now = head.at
		}
		due()
		if head == nil {
			running = false
			mu.Unlock()
			return
		}
		mu.Unlock()
	}
}

// round lets time pass until an event is due, by the loose clock. mu is not held: a moment may be taken away meanwhile.
func round() {
	for m := head; m != nil; m = head {
		d := (m.at - now) / part
		if d < step {
			d = step
		}
		now += d
		if m.at <= now {
			return
		}
	}
}

// due fires the events whose time has come; mu is held.
func due() {
	for head != nil && head.at <= now {
		e := head.first
		if e == nil {
			head = head.next
			continue
		}
		remove(e)
		fire(e)
	}
}

// drift lets a little time pass: whoever looks at the clock again and again sees it go on.
func drift() {
	if loose() {
		return
	}
	mu.Lock()
	now += look
	due()
	mu.Unlock()
}

// fire does what an event stands for; mu is held.
func fire(e *event) {
	if e.wake != nil {
		close(e.wake)
	}
	if e.times != nil {
		select {
		case e.times <- at(now):
		default:
		}
	}
	if e.f != nil {
		launch(e.call, e.f)
	}
	if e.period > 0 {
		e.at = now + e.period
		insert(e)
	}
}

func run(f func()) { f() }
