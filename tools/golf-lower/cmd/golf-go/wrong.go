package main

import (
	"fmt"
	"regexp"
	"slices"
	"strconv"
	"strings"
)

// option is a word of a program with its values: a range of numbers, a form, or none for a flag.
type option struct {
	least, most int
	form        *regexp.Regexp
	flag        bool
}

var runOptions = map[string]option{
	"--schedule": {form: regexp.MustCompile(`^(rotate|seed:\d{1,20}|choices:\d{1,20}(,\d{1,20})*)$`)},
	"--turns":    {least: 1, most: 10000000},
	"--every":    {least: 1, most: 10000000},
	"--markers":  {least: 1, most: 16},
	"--threads":  {least: 1, most: 16},
	"--recover":  {flag: true},
	"--why":      {flag: true},
}

// optionsOf are the options of the program that a mode runs, by the name of its command.
var optionsOf = map[string]struct {
	program string
	options map[string]option
}{
	"":     {"golf run", runOptions},
	"run":  {"golf run", runOptions},
	"page": {"golf run", runOptions},
	"explore": {"golf-explore all", map[string]option{
		"--states": {least: 1, most: 1000000},
	}},
	"search": {"golf-explore search", map[string]option{
		"--for":         {form: regexp.MustCompile(`^(leak|panic|asleep)$`)},
		"--preemptions": {least: 0, most: 16},
		"--states":      {least: 1, most: 1000000},
		"--seconds":     {least: 1, most: 86400},
	}},
	"check": {"golf-go check", nil},
	"validate": {"golf-go validate", map[string]option{
		"--turns": runOptions["--turns"],
	}},
}

// mostChoices are how many numbers a schedule of choices may have, of a page and of other runs.
var mostChoices = map[bool]int{true: 100000, false: 4096}

// wrongWord says which of the words is none of the program that a mode runs.
func wrongWord(mode string, words []string) string {
	if fault := faultOf(mode, words); fault != "" {
		return fault
	}
	return "the words are not those of " + optionsOf[mode].program
}

// faultOf is what is wrong with the words of the program that a mode runs, "" if nothing is.
func faultOf(mode string, words []string) string {
	program := optionsOf[mode].program
	var seen []string
	for len(words) > 0 {
		name, value, whole := strings.Cut(words[0], "=")
		words = words[1:]
		if name == "--" && !whole && len(words) == 0 {
			break
		}
		o, known := optionsOf[mode].options[name]
		switch {
		case !known, o.flag && whole:
			return fmt.Sprintf("no word of %s: %s", program, strings.TrimSuffix(name+"="+value, "="))
		case slices.Contains(seen, name):
			return "twice: " + name
		case !o.flag && !whole && len(words) == 0:
			return "no value after " + name
		}
		seen = append(seen, name)
		if o.flag {
			continue
		}
		if !whole {
			value, words = words[0], words[1:]
		}
		if most := mostChoices[mode == "page"]; name == "--schedule" && strings.Count(value, ",") >= most {
			return fmt.Sprintf("a schedule of choices has at most %d numbers", most)
		}
		if !o.takes(value) {
			return fmt.Sprintf("no value of %s: %s", name, value)
		}
	}
	if i := slices.IndexFunc(seen, func(s string) bool { return s != "--threads" }); i >= 0 && slices.Contains(seen, "--threads") {
		return "not beside --threads: " + seen[i]
	}
	return ""
}

// takes: the option takes the value.
func (o option) takes(value string) bool {
	if o.form != nil {
		return o.form.MatchString(value)
	}
	n, err := strconv.Atoi(value)
	return err == nil && value[0] != '+' && n >= o.least && n <= o.most
}
