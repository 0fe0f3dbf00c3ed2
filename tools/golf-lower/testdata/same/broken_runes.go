package main

import (
	"fmt"
	"unicode/utf8"
)

func main() {
	bad := []string{"\xff", "a\xc0\xafb", "\xe2\x82", "\xed\xa0\x80", "é\x80", "\xf4\x90\x80\x80", "日本語", "", "\x00", "\u200b"}
	for _, s := range bad {
		fmt.Printf("%q %x %d %d %v\n", s, s, len(s), utf8.RuneCountInString(s), utf8.ValidString(s))
		for i, r := range s {
			fmt.Print(i, ":", r, " ")
		}
		rs := []rune(s)
		fmt.Println(rs, len(rs), string(rs) == s, []byte(string(rs)))
		for i := range s {
			fmt.Print(i)
		}
		fmt.Println()
	}
	for _, r := range []rune{-1, 0, 'a', 0xd800, 0xfffd, 0x10ffff, 0x110000, 'é'} {
		s := string(r)
		fmt.Printf("%x %q %d %c %U %v\n", s, r, len(s), r, r, r)
	}
	var b byte = 'z'
	b += 200
	fmt.Println(b, string(rune(b)), 'a'+1, string(rune('a'+1)), "a"+string(rune(b)))
	s := "héllo"
	fmt.Println(s[1], s[1:3], s[:1]+s[3:], s > "hello", s < "i", s == "h\u00e9llo", len(s))
	c := []byte(s)
	c[1] = 'X'
	fmt.Println(string(c), s, string(c[2:]))
	type str string
	t := str("abc")
	t += "d"
	fmt.Println(t, t[1:], len(t), string(t) == "abcd", []byte(t), t[0] == 'a')
	fmt.Printf("%5s|%-5s|%.2s|%5.1s|%05d|%x|%X\n", "é", "é", "日本語", "日本語", -42, "hi", "hi")
	fmt.Printf("%c%c %q %q\n", 0x65e5, 'x', 'x', '\n')
	switch s[0] {
	case 'h':
		fmt.Println("h")
	}
	for i := len(s) - 1; i >= 0; i-- {
		fmt.Print(s[i], " ")
	}
	fmt.Println()
	fmt.Println(fmt.Sprint("a", 1, 2, "b", "c", 3.0, 'x', nil, true, []string{"a b", "c"}))
	fmt.Println(fmt.Sprintln("a", 1) == "a 1\n")
}
