package main

import "fmt"

type Counter0 struct{ x int }

func (t *Counter0) Get() int { return t.x + 0 }

type Counter1 struct{ x int }

func (t *Counter1) Get() int { return t.x + 1 }

type Counter2 struct{ x int }

func (t *Counter2) Get() int { return t.x + 2 }

type Counter3 struct{ x int }

func (t *Counter3) Get() int { return t.x + 3 }

type Counter4 struct{ x int }

func (t *Counter4) Get() int { return t.x + 4 }

type Counter5 struct{ x int }

func (t *Counter5) Get() int { return t.x + 5 }

type Counter6 struct{ x int }

func (t *Counter6) Get() int { return t.x + 6 }

type Counter7 struct{ x int }

func (t *Counter7) Get() int { return t.x + 7 }

type Counter8 struct{ x int }

func (t *Counter8) Get() int { return t.x + 8 }

type Counter9 struct{ x int }

func (t *Counter9) Get() int { return t.x + 9 }

type Counter10 struct{ x int }

func (t *Counter10) Get() int { return t.x + 10 }

type Counter11 struct{ x int }

func (t *Counter11) Get() int { return t.x + 11 }

type Counter12 struct{ x int }

func (t *Counter12) Get() int { return t.x + 12 }

type Counter13 struct{ x int }

func (t *Counter13) Get() int { return t.x + 13 }

type Counter14 struct{ x int }

func (t *Counter14) Get() int { return t.x + 14 }

type Counter15 struct{ x int }

func (t *Counter15) Get() int { return t.x + 15 }

type Counter16 struct{ x int }

func (t *Counter16) Get() int { return t.x + 16 }

type Counter17 struct{ x int }

func (t *Counter17) Get() int { return t.x + 17 }

type Counter18 struct{ x int }

func (t *Counter18) Get() int { return t.x + 18 }

type Counter19 struct{ x int }

func (t *Counter19) Get() int { return t.x + 19 }

type Counter20 struct{ x int }

func (t *Counter20) Get() int { return t.x + 20 }

type Counter21 struct{ x int }

func (t *Counter21) Get() int { return t.x + 21 }

type Counter22 struct{ x int }

func (t *Counter22) Get() int { return t.x + 22 }

type Counter23 struct{ x int }

func (t *Counter23) Get() int { return t.x + 23 }

type Counter24 struct{ x int }

func (t *Counter24) Get() int { return t.x + 24 }

type Counter25 struct{ x int }

func (t *Counter25) Get() int { return t.x + 25 }

type Counter26 struct{ x int }

func (t *Counter26) Get() int { return t.x + 26 }

type Counter27 struct{ x int }

func (t *Counter27) Get() int { return t.x + 27 }

type Counter28 struct{ x int }

func (t *Counter28) Get() int { return t.x + 28 }

type Counter29 struct{ x int }

func (t *Counter29) Get() int { return t.x + 29 }

type Counter30 struct{ x int }

func (t *Counter30) Get() int { return t.x + 30 }

type Counter31 struct{ x int }

func (t *Counter31) Get() int { return t.x + 31 }

type Counter32 struct{ x int }

func (t *Counter32) Get() int { return t.x + 32 }

type Counter33 struct{ x int }

func (t *Counter33) Get() int { return t.x + 33 }

type Counter34 struct{ x int }

func (t *Counter34) Get() int { return t.x + 34 }

type Counter35 struct{ x int }

func (t *Counter35) Get() int { return t.x + 35 }

type Counter36 struct{ x int }

func (t *Counter36) Get() int { return t.x + 36 }

type Counter37 struct{ x int }

func (t *Counter37) Get() int { return t.x + 37 }

type Counter38 struct{ x int }

func (t *Counter38) Get() int { return t.x + 38 }

type Counter39 struct{ x int }

func (t *Counter39) Get() int { return t.x + 39 }

type Counter40 struct{ x int }

func (t *Counter40) Get() int { return t.x + 40 }

type Counter41 struct{ x int }

func (t *Counter41) Get() int { return t.x + 41 }

type Counter42 struct{ x int }

func (t *Counter42) Get() int { return t.x + 42 }

type Counter43 struct{ x int }

func (t *Counter43) Get() int { return t.x + 43 }

type Counter44 struct{ x int }

func (t *Counter44) Get() int { return t.x + 44 }

type Counter45 struct{ x int }

func (t *Counter45) Get() int { return t.x + 45 }

type Counter46 struct{ x int }

func (t *Counter46) Get() int { return t.x + 46 }

type Counter47 struct{ x int }

func (t *Counter47) Get() int { return t.x + 47 }

type Counter48 struct{ x int }

func (t *Counter48) Get() int { return t.x + 48 }

type Counter49 struct{ x int }

func (t *Counter49) Get() int { return t.x + 49 }

type Counter50 struct{ x int }

func (t *Counter50) Get() int { return t.x + 50 }

type Counter51 struct{ x int }

func (t *Counter51) Get() int { return t.x + 51 }

type Counter52 struct{ x int }

func (t *Counter52) Get() int { return t.x + 52 }

type Counter53 struct{ x int }

func (t *Counter53) Get() int { return t.x + 53 }

type Counter54 struct{ x int }

func (t *Counter54) Get() int { return t.x + 54 }

type Counter55 struct{ x int }

func (t *Counter55) Get() int { return t.x + 55 }

type Counter56 struct{ x int }

func (t *Counter56) Get() int { return t.x + 56 }

type Counter57 struct{ x int }

func (t *Counter57) Get() int { return t.x + 57 }

type Counter58 struct{ x int }

func (t *Counter58) Get() int { return t.x + 58 }

type Counter59 struct{ x int }

func (t *Counter59) Get() int { return t.x + 59 }

type Counter60 struct{ x int }

func (t *Counter60) Get() int { return t.x + 60 }

type Counter61 struct{ x int }

func (t *Counter61) Get() int { return t.x + 61 }

type Counter62 struct{ x int }

func (t *Counter62) Get() int { return t.x + 62 }

type Counter63 struct{ x int }

func (t *Counter63) Get() int { return t.x + 63 }

type Counter64 struct{ x int }

func (t *Counter64) Get() int { return t.x + 64 }

type Counter65 struct{ x int }

func (t *Counter65) Get() int { return t.x + 65 }

type Counter66 struct{ x int }

func (t *Counter66) Get() int { return t.x + 66 }

type Counter67 struct{ x int }

func (t *Counter67) Get() int { return t.x + 67 }

type Counter68 struct{ x int }

func (t *Counter68) Get() int { return t.x + 68 }

type Counter69 struct{ x int }

func (t *Counter69) Get() int { return t.x + 69 }

type Getter interface{ Get() int }

func main() {
	var getters []Getter
	getters = append(getters, &Counter0{0})
	getters = append(getters, &Counter1{1})
	getters = append(getters, &Counter2{2})
	getters = append(getters, &Counter3{3})
	getters = append(getters, &Counter4{4})
	getters = append(getters, &Counter5{5})
	getters = append(getters, &Counter6{6})
	getters = append(getters, &Counter7{7})
	getters = append(getters, &Counter8{8})
	getters = append(getters, &Counter9{9})
	getters = append(getters, &Counter10{10})
	getters = append(getters, &Counter11{11})
	getters = append(getters, &Counter12{12})
	getters = append(getters, &Counter13{13})
	getters = append(getters, &Counter14{14})
	getters = append(getters, &Counter15{15})
	getters = append(getters, &Counter16{16})
	getters = append(getters, &Counter17{17})
	getters = append(getters, &Counter18{18})
	getters = append(getters, &Counter19{19})
	getters = append(getters, &Counter20{20})
	getters = append(getters, &Counter21{21})
	getters = append(getters, &Counter22{22})
	getters = append(getters, &Counter23{23})
	getters = append(getters, &Counter24{24})
	getters = append(getters, &Counter25{25})
	getters = append(getters, &Counter26{26})
	getters = append(getters, &Counter27{27})
	getters = append(getters, &Counter28{28})
	getters = append(getters, &Counter29{29})
	getters = append(getters, &Counter30{30})
	getters = append(getters, &Counter31{31})
	getters = append(getters, &Counter32{32})
	getters = append(getters, &Counter33{33})
	getters = append(getters, &Counter34{34})
	getters = append(getters, &Counter35{35})
	getters = append(getters, &Counter36{36})
	getters = append(getters, &Counter37{37})
	getters = append(getters, &Counter38{38})
	getters = append(getters, &Counter39{39})
	getters = append(getters, &Counter40{40})
	getters = append(getters, &Counter41{41})
	getters = append(getters, &Counter42{42})
	getters = append(getters, &Counter43{43})
	getters = append(getters, &Counter44{44})
	getters = append(getters, &Counter45{45})
	getters = append(getters, &Counter46{46})
	getters = append(getters, &Counter47{47})
	getters = append(getters, &Counter48{48})
	getters = append(getters, &Counter49{49})
	getters = append(getters, &Counter50{50})
	getters = append(getters, &Counter51{51})
	getters = append(getters, &Counter52{52})
	getters = append(getters, &Counter53{53})
	getters = append(getters, &Counter54{54})
	getters = append(getters, &Counter55{55})
	getters = append(getters, &Counter56{56})
	getters = append(getters, &Counter57{57})
	getters = append(getters, &Counter58{58})
	getters = append(getters, &Counter59{59})
	getters = append(getters, &Counter60{60})
	getters = append(getters, &Counter61{61})
	getters = append(getters, &Counter62{62})
	getters = append(getters, &Counter63{63})
	getters = append(getters, &Counter64{64})
	getters = append(getters, &Counter65{65})
	getters = append(getters, &Counter66{66})
	getters = append(getters, &Counter67{67})
	getters = append(getters, &Counter68{68})
	getters = append(getters, &Counter69{69})
	n := 0
	for _, g := range getters {
		n += g.Get()
	}
	fmt.Println(n)
}
