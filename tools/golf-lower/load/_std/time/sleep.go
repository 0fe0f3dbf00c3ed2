package time

// Late keeps a goroutine that has been started from going on at once.
func Late() { Sleep(10 * step) }

var chance = 12345

// Pause keeps a goroutine, now and then, from doing at once what can block.
func Pause() {
	chance = (chance*1103515245 + 12345) % 2147483648
	c := chance / 1024
	if c%4 == 0 {
		Sleep(Duration(1+c/4%16) * step)
	}
}

// at is a time of the clock.
func at(ns int64) Time { return Unix(ns/1000000000, ns%1000000000) }

// Local is UTC here.
var Local *Location = &utcLoc

func Now() Time {
	drift()
	return at(now)
}

func Since(t Time) Duration { return Now().Sub(t) }

func Until(t Time) Duration { return t.Sub(Now()) }

func Sleep(d Duration) {
	if d <= 0 {
		return
	}
	c := make(chan struct{})
	start(&event{wake: c}, d)
	<-c
}

// Timer has no channel if it starts a function.
type Timer struct {
	C    <-chan Time
	c    chan Time
	f    func()
	call int
	e    *event
}

func NewTimer(d Duration) *Timer {
	c := make(chan Time, 1)
	t := &Timer{C: c, c: c, e: &event{times: c}}
	start(t.e, d)
	return t
}

func AfterFunc(d Duration, f func()) *Timer { return afterFunc(d, f, 0) }

// afterFunc is AfterFunc at the call of this number in the user's files, 0 for a call elsewhere.
func afterFunc(d Duration, f func(), call int) *Timer {
	t := &Timer{f: f, call: call, e: &event{f: f, call: call}}
	start(t.e, d)
	return t
}

func After(d Duration) <-chan Time { return NewTimer(d).C }

// Stop, as since Go 1.23: a time that nobody has received is taken back.
func (t *Timer) Stop() bool {
	mu.Lock()
	was := remove(t.e)
	mu.Unlock()
	if t.c != nil {
		select {
		case <-t.c:
			was = true
		default:
		}
	}
	return was
}

func (t *Timer) Reset(d Duration) bool {
	was := t.Stop()
	t.e = &event{times: t.c, f: t.f, call: t.call}
	start(t.e, d)
	return was
}

type Ticker struct {
	C <-chan Time
	c chan Time
	e *event
}

func NewTicker(d Duration) *Ticker {
	if d <= 0 {
		panic("non-positive interval for NewTicker")
	}
	c := make(chan Time, 1)
	t := &Ticker{C: c, c: c}
	t.begin(d)
	return t
}

// begin starts the ticks; they are not closer than a round of the clock.
func (t *Ticker) begin(d Duration) {
	p := int64(d)
	if p < step {
		p = step
	}
	t.e = &event{times: t.c, period: p}
	start(t.e, d)
}

func Tick(d Duration) <-chan Time { return NewTicker(d).C }

func (t *Ticker) Stop() {
	mu.Lock()
	remove(t.e)
	mu.Unlock()
	select {
	case <-t.c:
	default:
	}
}

func (t *Ticker) Reset(d Duration) {
	if d <= 0 {
		panic("non-positive interval for Ticker.Reset")
	}
	t.Stop()
	t.begin(d)
}

// get: there is no zone but UTC and those that a file makes.
func (l *Location) get() *Location {
	if l == nil {
		return &utcLoc
	}
	return l
}

// unsupported ends the program; it is lowered where it is called.
func unsupported(what string)

func LoadLocation(name string) (*Location, error) {
	if name != "" && name != "UTC" {
		unsupported("the time zone " + name)
	}
	return UTC, nil
}
