package time

import "golf"

// mostNaps is how many stalls of a run may be sleeps.
const mostNaps = 20

// nap is the shortest sleep of a stall. Each next one of eight is four times as long, up to 0.8 seconds.
const nap = 50 * Microsecond

// grace is how long the goroutines of a test may go on after its end, before the last collection.
const grace = 100 * Millisecond

var (
	naps    int
	morning chan struct{} // closed when nobody is kept any more
)

// stall is golf.Stall in a program with a clock: half of the stalls are sleeps.
func stall() {
	if !golf.Stalls() {
		return
	}
	if golf.Draw() > 3 || naps >= mostNaps {
		golf.Spin()
		return
	}
	naps++
	if morning == nil {
		morning = make(chan struct{})
	}
	d := nap
	for i := golf.Draw(); i > 0; i-- {
		d = 4 * d
	}
	c := make(chan struct{})
	start(&event{wake: c}, d)
	select {
	case <-c:
	case <-morning:
	}
}

// resume is golf.Resume in a program with a clock.
func resume() {
	golf.Resume()
	if morning != nil {
		close(morning)
	}
	golf.Resume()
}

// settle lets a test's goroutines go on for a while.
func settle() { Sleep(grace) }
