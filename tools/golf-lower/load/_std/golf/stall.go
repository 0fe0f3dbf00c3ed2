package golf

// Stalls: before what other goroutines can see, the schedule chooses whether a goroutine is kept from it, and for how long.

// mostStalls is how many stalls a run has, so that a program of thousands of goroutines ends too.
const mostStalls = 200

// restRounds is how many rounds the others get before and after those that are kept go on.
const restRounds = 2000

var (
	stalls  int
	Resumed bool      // nobody is kept any more
	open    chan bool // closed
)

// Draw is a number below 8 that the schedule chooses: all cases are ready.
func Draw() int {
	if open == nil {
		c := make(chan bool)
		close(c)
		open = c
	}
	select {
	case <-open:
		return 0
	case <-open:
		return 1
	case <-open:
		return 2
	case <-open:
		return 3
	case <-open:
		return 4
	case <-open:
		return 5
	case <-open:
		return 6
	case <-open:
		return 7
	}
}

// Stalls says whether the goroutine is to be kept: three times of eight, if nobody has gone on yet.
func Stalls() bool {
	if Resumed || stalls >= mostStalls || Draw() > 2 {
		return false
	}
	stalls++
	return true
}

// Stall keeps a goroutine, if the schedule chooses so.
func Stall() {
	if Stalls() {
		Spin()
	}
}

// Spin keeps a goroutine for 8 to 1,024 rounds.
func Spin() {
	n := 8
	for i := Draw(); i > 0; i-- {
		n = 2 * n
	}
	for n > 0 && !Resumed {
		n--
	}
}

// Resume lets all go on that are kept.
func Resume() {
	rest()
	Resumed = true
	rest()
}

func rest() {
	for i := 0; i < restRounds; i++ {
	}
}
