// Package log: the output without the place of the call; the rest is Go's own.
package log

import "time"

// unsupported ends the program; it is lowered where it is called.
func unsupported(what string)

func (l *Logger) output(pc uintptr, calldepth int, appendOutput func([]byte) []byte) error {
	if l.Flags()&(Lshortfile|Llongfile) != 0 {
		unsupported("a log with the place of the call")
	}
	l.outMu.Lock()
	defer l.outMu.Unlock()
	var buf []byte
	formatHeader(&buf, time.Now(), l.Prefix(), l.Flags(), "", 0)
	buf = appendOutput(buf)
	if len(buf) == 0 || buf[len(buf)-1] != '\n' {
		buf = append(buf, '\n')
	}
	_, err := l.out.Write(buf)
	return err
}
