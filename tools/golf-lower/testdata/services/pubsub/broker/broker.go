// Package broker hands messages to those who have subscribed to their topics.
package broker

import (
	"errors"
	"sync"
	"sync/atomic"

	"example.com/pubsub/topic"
)

// Message is what is published.
type Message struct {
	Topic topic.Name
	Body  any
}

// Policy says what happens to a message for which a subscriber has no room.
type Policy int

// The policies.
const (
	Block   Policy = iota // the publisher waits
	DropNew               // the message is dropped
	DropOld               // the oldest message is dropped
)

func (p Policy) String() string { return [...]string{"block", "drop new", "drop old"}[p] }

// ErrClosed is the error of a closed broker.
var ErrClosed = errors.New("broker: closed")

// Subscription gets messages.
type Subscription struct {
	C       <-chan Message
	c       chan Message
	pattern topic.Pattern
	policy  Policy
	quit    chan struct{}
	once    sync.Once
	broker  *Broker
	dropped atomic.Uint64
}

// Dropped counts the messages for which there was no room.
func (s *Subscription) Dropped() uint64 { return s.dropped.Load() }

// Close ends the subscription. A publisher that waits for it goes on.
func (s *Subscription) Close() {
	s.once.Do(func() {
		close(s.quit)
		s.broker.remove(s)
	})
}

func (s *Subscription) deliver(m Message) {
	if s.policy == Block {
		select {
		case s.c <- m:
		case <-s.quit:
		}
		return
	}
	for {
		select {
		case s.c <- m:
			return
		default:
		}
		s.dropped.Add(1)
		if s.policy == DropNew {
			return
		}
		select {
		case <-s.c:
		default:
		}
	}
}

// Broker knows the subscriptions.
type Broker struct {
	mu     sync.RWMutex
	subs   map[*Subscription]struct{}
	closed bool
}

// New returns a broker without subscriptions.
func New() *Broker { return &Broker{subs: map[*Subscription]struct{}{}} }

// Subscribe returns a subscription with room for some messages.
func (b *Broker) Subscribe(pattern string, room int, policy Policy) (*Subscription, error) {
	c := make(chan Message, room)
	s := &Subscription{C: c, c: c, pattern: topic.Parse(pattern), policy: policy, quit: make(chan struct{}), broker: b}
	b.mu.Lock()
	defer b.mu.Unlock()
	if b.closed {
		return nil, ErrClosed
	}
	b.subs[s] = struct{}{}
	return s, nil
}

func (b *Broker) remove(s *Subscription) {
	b.mu.Lock()
	defer b.mu.Unlock()
	delete(b.subs, s)
}

// Publish hands a message to all whose pattern matches, and counts them.
func (b *Broker) Publish(name topic.Name, body any) (int, error) {
	b.mu.RLock()
	if b.closed {
		b.mu.RUnlock()
		return 0, ErrClosed
	}
	var to []*Subscription
	for s := range b.subs {
		if s.pattern.Matches(name) {
			to = append(to, s)
		}
	}
	b.mu.RUnlock()
	for _, s := range to {
		s.deliver(Message{Topic: name, Body: body})
	}
	return len(to), nil
}

// Close ends all subscriptions.
func (b *Broker) Close() {
	b.mu.Lock()
	b.closed = true
	var all []*Subscription
	for s := range b.subs {
		all = append(all, s)
	}
	b.mu.Unlock()
	for _, s := range all {
		s.Close()
	}
}
