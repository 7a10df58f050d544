package main

import (
	"net"
	"time"
)

const (
	// linger is how long a buffer that isn't small waits for more, before it is made small.
	linger = time.Second
	// piece is how many bytes are written under one deadline.
	piece = 256 << 10
)

// link reads from one end of a connection and writes to the other, under the deadlines of both.
type link struct {
	from, to       net.Conn
	session        *session
	messageTimeout time.Duration
	idleTimeout    time.Duration
	started        time.Duration // when the message began of which a part is there
}

// start notes that a message begins.
func (l *link) start() { l.started = now() }

// read reads once. isInside says whether a part of a message is there, and isWide whether the buffer should be made small
// if nothing comes for a while: then the cause is quiet. At the end of the stream it is closed.
func (l *link) read(b []byte, isInside, isWide bool) (int, cause, error) {
	for {
		wait, late := l.patience(isInside)
		if wait <= 0 {
			return 0, late, nil
		}
		if isWide && wait > linger {
			wait = linger
		}
		n, err := l.receive(b, wait)
		if n > 0 {
			l.session.activity.touch()
			return n, "", nil
		}
		switch {
		case l.session.isStopping():
			return 0, stopped, nil
		case err != nil && !isTimeout(err):
			return 0, causeOf(err), err
		case isWide:
			return 0, quiet, nil
		}
	}
}

// patience returns how long to wait for bytes, and why the connection ends if none come.
func (l *link) patience(isInside bool) (time.Duration, cause) {
	switch {
	case isInside && l.messageTimeout > 0:
		return l.messageTimeout - (now() - l.started), messageTimeout
	case l.idleTimeout > 0:
		return l.idleTimeout - l.session.activity.since(), idleTimeout
	}
	return time.Hour, ""
}

// receive reads once, and waits so long.
func (l *link) receive(b []byte, wait time.Duration) (int, error) {
	if err := l.from.SetReadDeadline(time.Now().Add(wait)); err != nil {
		return 0, err
	}
	// (a stop may have come before this deadline was set)
	if l.session.isStopping() {
		return 0, net.ErrClosed
	}
	return l.from.Read(b)
}

// write writes all of b. The reader of these bytes has as long for each piece as the connection may be idle.
func (l *link) write(b []byte) (cause, error) {
	for len(b) > 0 {
		n := len(b)
		if n > piece {
			n = piece
		}
		if l.idleTimeout > 0 {
			l.to.SetWriteDeadline(time.Now().Add(l.idleTimeout))
		}
		// (a stop may have come before this deadline was set, and then its own one is set again)
		if l.session.isStopping() {
			l.to.SetWriteDeadline(time.Now().Add(linger))
		}
		if _, err := l.to.Write(b[:n]); err != nil {
			switch {
			case l.session.isStopping():
				return stopped, nil
			case isTimeout(err):
				return idleTimeout, nil
			}
			return failed, err
		}
		l.session.activity.touch()
		b = b[n:]
	}
	return "", nil
}
