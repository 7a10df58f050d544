package capvet

import (
	"io"
	"net"
	"sync"
)

// Reader reads a plain stream of messages, and returns the bytes of those that are accepted: bytes in, vetted bytes out. It
// goes between a connection and what reads messages from an io.Reader.
//
// The bytes of a message come only after all of it is vetted, and those of a refused message never come. Read then returns
// its *Refusal, and nothing after it. A stream that is cut or broken gives a *FrameError. A timeout of the reader below does
// not end a Reader: no byte is lost, and the next Read goes on.
//
// A Reader holds one message, as a Scanner does.
type Reader struct {
	scanner *Scanner
	rest    []byte // of the message that was accepted last
	err     error  // why there are no more messages
}

// NewReader returns a Reader of the messages of r.
func NewReader(r io.Reader, l *Limits) *Reader {
	return &Reader{scanner: NewScanner(r, l)}
}

// Read reads from one message, and waits only if it has no byte of one. The error is io.EOF at the end of the stream, and
// otherwise one of Scanner.Err.
func (r *Reader) Read(b []byte) (int, error) {
	if len(r.rest) == 0 && len(b) > 0 {
		if err := r.next(); err != nil {
			return 0, err
		}
	}
	n := copy(b, r.rest)
	r.rest = r.rest[n:]
	return n, nil
}

// next scans the next message.
func (r *Reader) next() error {
	if r.err != nil {
		return r.err
	}
	r.rest = nil // (an empty slice holds its buffer)
	if r.scanner.Scan() {
		r.rest = r.scanner.Message().Bytes()
		return nil
	}
	err := r.scanner.Err()
	if err == nil {
		err = io.EOF
	}
	if !isTimeout(err) {
		r.err = err
	}
	return err
}

// Conn is a connection that passes on only accepted messages: its Read is that of a Reader. Everything else is done by the
// connection in it. Set a read deadline as without it, since a peer may take its time for a message.
type Conn struct {
	net.Conn
	reading sync.Mutex
	reader  *Reader
}

// NewConn returns a Conn over a connection on which plain messages come.
func NewConn(c net.Conn, l *Limits) *Conn {
	return &Conn{Conn: c, reader: NewReader(c, l)}
}

// Read reads from one accepted message, as Reader.Read does. Several goroutines may call it.
func (c *Conn) Read(b []byte) (int, error) {
	c.reading.Lock()
	defer c.reading.Unlock()
	return c.reader.Read(b)
}
