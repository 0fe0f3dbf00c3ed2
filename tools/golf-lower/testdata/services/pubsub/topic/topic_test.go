package topic_test

import (
	"testing"

	"example.com/pubsub/topic"
)

func TestMatches(t *testing.T) {
	for _, c := range []struct {
		pattern string
		name    topic.Name
		want    bool
	}{
		{"a.b", "a.b", true},
		{"a.b", "a.c", false},
		{"a.*", "a.c", true},
		{"a.*", "a.b.c", false},
		{"a.**", "a.b.c", true},
		{"a.**", "a", true},
		{"**", "x.y.z", true},
		{"*.b", "a", false},
	} {
		t.Run(c.pattern+" "+string(c.name), func(t *testing.T) {
			if got := topic.Parse(c.pattern).Matches(c.name); got != c.want {
				t.Errorf("%v, want %v", got, c.want)
			}
		})
	}
	if s := topic.Parse("a.*").String(); s != "a.*" {
		t.Error(s)
	}
}
