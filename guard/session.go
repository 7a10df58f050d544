package main

import (
	"io"
	"sync/atomic"
	"time"
)

// traffic is what a session has passed on in one direction.
type traffic struct {
	Messages uint64 `json:"messages"`
	Bytes    uint64 `json:"bytes"`
}

// session is a connection through the guard.
type session struct {
	guard    *guard
	caller   *caller
	server   *backend
	ends     [2]half
	begun    time.Duration
	activity activity
	stopping atomic.Bool
	stopped  chan struct{} // closed once it stops
	passed   [2]traffic    // by the direction
}

func newSession(g *guard, c *caller, conn half, at *backend) *session {
	return &session{guard: g, caller: c, server: at, ends: [2]half{c.conn, conn}, begun: now(), stopped: make(chan struct{})}
}

// isStopping reports whether the connection ends though its peers have not ended it.
func (s *session) isStopping() bool { return s.stopping.Load() }

// isTrial reports whether refused messages are passed on.
func (s *session) isTrial() bool { return s.guard.options.dryRun }

// stop ends both directions. What is being written may take a little longer.
func (s *session) stop() {
	if s.stopping.Swap(true) {
		return
	}
	close(s.stopped)
	for _, end := range s.ends {
		end.SetReadDeadline(time.Unix(1, 0))
		end.SetWriteDeadline(time.Now().Add(linger))
	}
}

// pump returns what passes on a direction.
func (s *session) pump(d direction) pump {
	o, memory := s.guard.options, &s.caller.peer.memory
	l := link{from: s.ends[d.from()], to: s.ends[d.to()], session: s, messageTimeout: o.messageTimeout, idleTimeout: o.idleTimeout}
	v := vetter{&o.limits, &s.guard.metrics.directions[d]}
	var toPacked *packer
	if o.packed[d.to()] {
		toPacked = &packer{limits: &o.limits, memory: memory}
	}
	switch {
	case !o.vetted[d]:
		return &copier{link: l, buffer: newBuffer(memory), direction: d}
	case o.packed[d.from()]:
		u := &unpacker{link: l, direction: d, vetter: v, packer: toPacked, memory: memory}
		u.scanner = v.scanner(u)
		return u
	}
	return &filter{link: l, buffer: newBuffer(memory), direction: d, vetter: v, packer: toPacked}
}

// run passes on both directions until they have ended, and returns why the connection ended.
func (s *session) run() ending {
	s.activity.touch()
	other := make(chan ending, 1)
	go func() { other <- s.direct(requests) }()
	reply := s.direct(replies)
	return worse(<-other, reply)
}

// worse returns the ending that says more: that of the direction that ended both.
func worse(x, y ending) ending {
	rank := map[cause]int{closed: 0, stopped: 1}
	rankOf := func(e ending) int {
		if n, ok := rank[e.cause]; ok {
			return n
		}
		return len(rank)
	}
	if rankOf(x) >= rankOf(y) {
		return x
	}
	return y
}

// direct passes on one direction, and then ends it, or both.
func (s *session) direct(d direction) ending {
	e := s.pump(d).run()
	if e.cause == closed {
		s.ends[d.to()].CloseWrite()
	} else {
		s.stop()
	}
	return e
}

// await waits before messages are written, if the client sends more than its peer may.
func (s *session) await(d direction, messages, bytes int) {
	if d == requests {
		s.pause(s.caller.peer.messages.spend(messages))
		s.pause(s.caller.peer.bytes.spend(bytes))
	}
}

// count counts messages that were written.
func (s *session) count(d direction, messages, bytes int) {
	metrics := &s.guard.metrics.directions[d]
	metrics.messages.Add(float64(messages))
	metrics.bytes.Add(float64(bytes))
	s.passed[d].Messages += uint64(messages)
	s.passed[d].Bytes += uint64(bytes)
}

// pause waits, unless the session ends. Meanwhile the connection is not idle.
func (s *session) pause(wait time.Duration) {
	for until := now() + wait; now() < until; s.activity.touch() {
		part := until - now()
		if part > linger {
			part = linger
		}
		select {
		case <-s.stopped:
			return
		case <-time.After(part):
		}
	}
}

// report notes that a message is refused, or why the guard ends the connection.
func (s *session) report(e ending) {
	if e.cause == refused {
		s.guard.metrics.refusals.WithLabelValues(e.direction.String(), e.reason()).Inc()
	}
	s.guard.log.message(name(s.caller.source), e)
}

// record returns the line of the log about a connection that has ended.
func (s *session) record(e ending) record {
	seconds := (now() - s.begun).Seconds()
	return record{Event: "connection", Peer: name(s.caller.source), Certificate: s.caller.certificate, Server: s.server.text(),
		Cause: string(e.cause), Seconds: &seconds, Requests: &s.passed[requests], Replies: &s.passed[replies]}
}

// shut ends what is written to both ends.
func (s *session) shut() {
	for _, end := range s.ends {
		if s.isStopping() {
			end.SetDeadline(time.Now().Add(linger))
			end.CloseWrite()
		} else {
			end.Close()
		}
	}
}

// linger closes both ends once what was written has arrived, also if a peer goes on sending. (A connection that is closed with
// bytes that nobody has read loses what is on its way.) The sender of a refused message has a moment. The other end may take as
// long as the connection may be idle.
func (s *session) linger(e ending) {
	if !s.isStopping() {
		return
	}
	done := make(chan bool, len(s.ends))
	for at, end := range s.ends {
		isPatient := e.cause != idleTimeout && !(e.cause.isAboutMessage() && side(at) == e.direction.from())
		go func(end half) {
			s.discard(end, isPatient)
			end.Close()
			done <- true
		}(end)
	}
	<-done
	<-done
}

const (
	// silence is how long an end that has got everything may send nothing before it is closed.
	silence = 5 * time.Second
	// farewell is how long an end that has got everything may go on sending before it is closed.
	farewell = 30 * time.Second
)

// discard reads until an end has ended. It waits for this only if it is patient, and while the end still gets bytes. An end that
// has got everything may be a proxy which still passes it on. If its replies found a closed connection, it could drop the rest.
func (s *session) discard(end half, isPatient bool) {
	idle, left, begun := s.guard.options.idleTimeout, unsent(end), now()
	moved, heard := begun, begun // when the end last got bytes, and last sent some
	for buffer := make([]byte, small); ; {
		end.SetReadDeadline(time.Now().Add(linger))
		count, err := io.CopyBuffer(io.Discard, struct{ io.Reader }{end}, buffer)
		if err == nil || !isTimeout(err) || !isPatient || s.guard.running.Err() != nil {
			return
		}
		if count > 0 {
			heard = now()
		}
		n := unsent(end)
		if n < left {
			left, moved = n, now()
		}
		if n > 0 && idle > 0 && now()-moved >= idle || n == 0 && (now()-heard >= silence || now()-moved >= farewell) {
			return
		}
	}
}
