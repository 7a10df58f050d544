package main

import (
	"fmt"
	"io"
	"sync/atomic"
	"time"
)

const (
	// queued is how many lines of the log wait for its reader.
	queued = 1024
	// lastWords is how long the end of the guard waits for the reader of the log.
	lastWords = time.Second
)

// loss is why a line of the log is dropped.
type loss int

const (
	overRate  loss = iota // there are more lines a second than --log-rate
	queueFull             // the reader of the log is too slow
)

func (l loss) String() string { return [...]string{"rate", "queue"}[l] }

// logger writes records, each in one write. A connection never waits for the reader of the log: lines wait in a queue. A
// line that is too much is dropped and counted.
type logger struct {
	isJSON  bool
	rate    bucket // of lines about connections
	lines   chan string
	closing chan struct{}
	ended   chan struct{}
	dropped [2]atomic.Int64 // by the loss
	said    int64           // how many of them a line has been about
}

// newLogger returns a logger that writes at most so many lines about connections in a second, or all if rate is 0.
func newLogger(out io.Writer, isJSON bool, rate int64) *logger {
	l := &logger{isJSON: isJSON, rate: bucket{rate: rate}, lines: make(chan string, queued), closing: make(chan struct{}),
		ended: make(chan struct{})}
	go l.run(out)
	return l
}

// close writes the lines that wait. It gives up if nobody reads them.
func (l *logger) close() {
	close(l.closing)
	select {
	case <-l.ended:
	case <-time.After(lastWords):
	}
}

// run writes lines until the logger is closed.
func (l *logger) run(out io.Writer) {
	defer close(l.ended)
	tick := time.NewTicker(time.Second)
	defer tick.Stop()
	for {
		select {
		case line := <-l.lines:
			io.WriteString(out, line)
		case <-tick.C:
			l.sayDropped(out)
		case <-l.closing:
			for len(l.lines) > 0 {
				io.WriteString(out, <-l.lines)
			}
			l.sayDropped(out)
			return
		}
	}
}

// sayDropped writes how many lines were dropped since it last did so.
func (l *logger) sayDropped(out io.Writer) {
	all := l.dropped[overRate].Load() + l.dropped[queueFull].Load()
	if all > l.said {
		io.WriteString(out, l.format(record{Event: "dropped", Text: fmt.Sprintf("%d lines of the log", all-l.said)}))
		l.said = all
	}
}

// message writes why the guard ended a connection, or would end it: the words are about a message.
func (l *logger) message(peer string, e ending) { l.connection(aboutMessage(peer, e)) }

// text returns the line that message writes.
func (l *logger) text(peer string, e ending) string { return l.format(aboutMessage(peer, e)) }

// connection writes a line about a connection, unless there are too many of them.
func (l *logger) connection(r record) {
	if !l.rate.allow(1) {
		l.dropped[overRate].Add(1)
		return
	}
	l.write(r)
}

// reject writes why a client is not served.
func (l *logger) reject(event, peer string, err error) {
	l.connection(record{Event: event, Peer: peer, Text: textOf(err)})
}

// note writes a line about the guard itself.
func (l *logger) note(event, address string, err error) {
	l.write(record{Event: event, Address: address, Text: textOf(err)})
}

// textOf returns the text of an error, or none if there is no error.
func textOf(err error) string {
	if err == nil {
		return ""
	}
	return short(err.Error())
}

func (l *logger) write(r record) {
	select {
	case l.lines <- l.format(r):
	default:
		l.dropped[queueFull].Add(1)
	}
}
