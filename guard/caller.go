package main

import (
	"net"

	"github.com/prometheus/client_golang/prometheus"
)

// stage is how far a connection of a client has come.
type stage int

const (
	gone       stage = iota // it has no place, or no longer
	greeting                // what comes before its messages is read: the PROXY protocol and TLS
	connecting              // the server is connected to
	serving                 // messages are passed on
)

// stages are the names of the stages in which a connection has a place.
var stages = [...]string{greeting: "greeting", connecting: "connecting", serving: "open"}

// caller is a client that has connected, with the addresses of its connection.
type caller struct {
	conn           half
	source, target net.Addr
	certificate    string // the name in its certificate, if it shows one
	peer           *peer
	at             stage
	stage          [len(stages)]prometheus.Gauge
}

// enter counts the connection at another stage.
func (c *caller) enter(next stage) {
	if c.at != gone {
		c.stage[c.at].Dec()
	}
	if next != gone {
		c.stage[next].Inc()
	}
	c.at = next
}
