package main

import (
	"errors"
	"io"
	"net"
	"os"

	"capvet.invalid/capvet"
)

// side is an end of the guard.
type side int

const (
	client side = iota
	server
)

func (s side) String() string { return [...]string{"client", "server"}[s] }

// direction is a way of messages through the guard.
type direction int

const (
	requests direction = iota // from the client to the server
	replies                   // from the server to the client
)

func (d direction) String() string { return [...]string{"requests", "replies"}[d] }

// from returns the side at which messages of this direction come.
func (d direction) from() side { return side(d) }

// to returns the side to which they are passed on.
func (d direction) to() side { return 1 - side(d) }

// cause is why a direction of a connection ended.
type cause string

const (
	closed         cause = "closed"          // its sender has sent all
	refused        cause = "refused"         // a message is not accepted
	messageTimeout cause = "message_timeout" // a message took too long
	idleTimeout    cause = "idle_timeout"    // nothing moved for too long
	noMemory       cause = "memory"          // no space is left for a message
	failed         cause = "failed"          // a read or a write failed
	stopped        cause = "stopped"         // the other direction ended the connection, or the guard ends
	quiet          cause = "quiet"           // it has not ended, and nothing came for a while
)

// The causes of connections that are not served.
const (
	manyConnections cause = "max_connections" // all places are taken
	manyOfPeer      cause = "max_per_peer"    // all places of the peer are taken
	overRateOfPeer  cause = "rate"            // the peer connects too often
	badGreeting     cause = "greeting"        // its PROXY header or its handshake is wrong, or takes too long
	noServer        cause = "connect"         // the server can't be reached
)

// isAboutMessage reports whether the guard has ended a connection for a message, or since none came.
func (c cause) isAboutMessage() bool {
	switch c {
	case refused, messageTimeout, idleTimeout, noMemory:
		return true
	}
	return false
}

// ending is how a direction of a connection ended.
type ending struct {
	cause     cause
	direction direction
	message   uint64 // how many messages were passed on before
	offset    int64  // where the next one starts: how many bytes came before it
	err       error
	path      string // to the pointer that is refused, if one is
	guess     guess  // what the bytes look like, if that is another format
}

// reason returns the name of the reason of a refused message, as the program prints it.
func (e ending) reason() string {
	var reason capvet.Reason
	if errors.As(e.err, &reason) {
		return reason.String()
	}
	return ""
}

// text returns what the program prints after "message N: ", or the error.
func (e ending) text() string {
	var refusal *capvet.Refusal
	var frame *capvet.FrameError
	switch {
	case errors.As(e.err, &refusal):
		return refusal.Line()
	case errors.As(e.err, &frame):
		return frame.Line()
	case e.err != nil:
		return e.err.Error()
	}
	return string(e.cause)
}

// isTimeout reports whether an error is about a deadline.
func isTimeout(err error) bool {
	return errors.Is(err, os.ErrDeadlineExceeded)
}

// causeOf returns why a read or a write ended a direction, by its error.
func causeOf(err error) cause {
	switch {
	case err == io.EOF:
		return closed
	case errors.Is(err, net.ErrClosed):
		return stopped
	}
	return failed
}
