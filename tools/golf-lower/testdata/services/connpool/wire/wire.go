// Package wire is a connection to a server that lives in the memory of the program.
package wire

import (
	"bytes"
	"encoding/binary"
	"errors"
	"fmt"
	"io"
	"sync"
)

// ErrBroken is the error of a connection that is closed.
var ErrBroken = errors.New("wire: broken connection")

// Server answers requests.
type Server struct {
	mu    sync.Mutex
	opens int
	limit int
	fail  bool
}

// NewServer returns a server for some connections at the same time.
func NewServer(limit int) *Server { return &Server{limit: limit} }

// Fail lets the next connections fail, or not.
func (s *Server) Fail(fail bool) {
	s.mu.Lock()
	s.fail = fail
	s.mu.Unlock()
}

// Open counts the connections of now.
func (s *Server) Open() int {
	s.mu.Lock()
	defer s.mu.Unlock()
	return s.opens
}

// Dial opens a connection.
func (s *Server) Dial() (*Conn, error) {
	s.mu.Lock()
	defer s.mu.Unlock()
	switch {
	case s.fail:
		return nil, fmt.Errorf("dial: %w", io.ErrUnexpectedEOF)
	case s.opens == s.limit:
		return nil, fmt.Errorf("dial: %d connections are open", s.opens)
	}
	s.opens++
	return &Conn{server: s}, nil
}

// Conn is a connection, for one goroutine at a time.
type Conn struct {
	server *Server
	buf    bytes.Buffer
	closed bool
	Calls  int
}

// Call sends numbers and gets their sum back.
func (c *Conn) Call(numbers ...uint16) (sum uint32, err error) {
	if c.closed {
		return 0, ErrBroken
	}
	c.Calls++
	c.buf.Reset()
	if err := c.buf.WriteByte(byte(len(numbers))); err != nil {
		return 0, err
	}
	for _, n := range numbers {
		c.buf.Write(binary.BigEndian.AppendUint16(nil, n))
	}
	return answer(&c.buf)
}

// answer is what the server does.
func answer(r io.Reader) (sum uint32, err error) {
	var head [1]byte
	if _, err := io.ReadFull(r, head[:]); err != nil {
		return 0, err
	}
	body := make([]byte, 2*int(head[0]))
	if _, err := io.ReadFull(r, body); err != nil {
		return 0, err
	}
	for ; len(body) > 0; body = body[2:] {
		sum += uint32(binary.BigEndian.Uint16(body))
	}
	return sum, nil
}

// Close ends the connection.
func (c *Conn) Close() error {
	if c.closed {
		return ErrBroken
	}
	c.closed = true
	c.server.mu.Lock()
	c.server.opens--
	c.server.mu.Unlock()
	return nil
}
