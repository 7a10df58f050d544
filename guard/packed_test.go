package main

import (
	"bytes"
	"io"
	"testing"
	"time"
)

// Packed messages that come together are written together. (A write takes longer than a small message)
func TestPackedMessagesAreWrittenTogether(t *testing.T) {
	const messages = 5000
	for _, packed := range [][2]bool{{true, false}, {true, true}} {
		o := fuzzOptions(make([]byte, 16))
		o.packed = packed
		from := &fuzzConn{state: 3, rest: bytes.Repeat(mustPack(t, shared), messages), end: io.EOF}
		to := &fuzzConn{}
		s := fuzzSession(o, from, to)
		s.activity.touch()
		if e := s.pump(requests).run(); e.cause != closed || e.message != messages {
			t.Fatal(e)
		}
		want := bytes.Repeat(shared, messages)
		if packed[server] {
			want = bytes.Repeat(mustPack(t, shared), messages)
		}
		if !bytes.Equal(to.out, want) || s.passed[requests] != (traffic{messages, uint64(messages * len(shared))}) {
			t.Error(len(to.out), s.passed)
		}
		if writes := -to.writes; writes > messages/50 {
			t.Error(writes, "writes")
		}
	}
}

// The line of a packed message that takes too long says no more than that of a plain one.
func TestLinesOfSlowPackedMessages(t *testing.T) {
	for _, words := range [][]string{{"--listen-packed"}, {}} {
		r := newRig(t, append(words, "--message-timeout", "100ms")...)
		client, server := r.pair()
		sends(client, []byte{0x10})
		ends(t, "the server", server, nil)
		until(t, "a line", func() bool { return len(r.linesAbout()) == 1 })
		if line := r.linesAbout()[0]; line != " requests message 0: message_timeout offset 0" {
			t.Errorf("%q", line)
		}
	}
}

// Rates are those of a peer, whatever its connections do: a connection that has to wait ends at once when it is cut.
func TestAPauseEndsWithItsConnection(t *testing.T) {
	r := newRig(t, "--message-rate", "10")
	client, _ := r.pair()
	sends(client, bytes.Repeat(empty, 5000))
	until(t, "it waits", func() bool { return !r.guard.peers.idle() })
	r.listener.Close()
	// (at its rate it would take eight minutes)
	begin := time.Now()
	r.guard.drain(time.Millisecond, nil)
	if took := time.Since(begin); took > testPatience {
		t.Error(took)
	}
}

// idle reports whether no peer has sent anything that still counts.
func (p *peers) idle() bool {
	p.lock.Lock()
	defer p.lock.Unlock()
	for _, it := range p.known {
		if !it.messages.isFull() {
			return false
		}
	}
	return true
}
