package main

import (
	"bufio"
	"bytes"
	"context"
	"errors"
	"flag"
	"io"
	"net"
	"os"
	"path/filepath"
	"testing"
	"time"

	"capvet.invalid/capvet"
	"github.com/pires/go-proxyproto"
)

// corpus is a folder of inputs to begin with: 16 bytes of arguments, and then the bytes of a stream. See tests/fuzz/fuzz.h.
var corpus = flag.String("corpus", "", "a folder of inputs for fuzzing")

// seeds adds the inputs of the corpus.
func seeds(f *testing.F) {
	f.Add(make([]byte, 16))
	names, err := filepath.Glob(filepath.Join(*corpus, "*"))
	if *corpus == "" || err != nil {
		names = nil
	}
	for _, name := range names {
		data, err := os.ReadFile(name)
		if err != nil {
			f.Fatal(err)
		}
		f.Add(data)
	}
}

// fuzzConn is a connection that gives bytes in pieces of any size, and now and then none before a deadline. It keeps what is
// written, and fails after a number of writes.
type fuzzConn struct {
	net.Conn
	state  uint64
	rest   []byte
	end    error  // after the bytes
	stop   func() // called now and then, if there is one
	out    []byte
	writes int
}

func (c *fuzzConn) choose(n int) int {
	c.state = c.state*6364136223846793005 + 1442695040888963407
	return int((c.state >> 33) % uint64(n))
}

func (c *fuzzConn) Read(b []byte) (int, error) {
	if len(b) == 0 {
		panic("a read without space")
	}
	if c.stop != nil && c.choose(16) == 0 {
		c.stop()
	}
	if c.choose(8) == 0 {
		return 0, os.ErrDeadlineExceeded
	}
	if len(c.rest) == 0 {
		return 0, c.end
	}
	n := len(b)
	if c.choose(2) == 0 {
		n = 1 + c.choose(n)
	}
	n = copy(b[:n], c.rest)
	c.rest = c.rest[n:]
	return n, nil
}

var errFull, errGone = errors.New("no more writes"), errors.New("the connection is gone")

func (c *fuzzConn) Write(b []byte) (int, error) {
	if c.stop != nil && c.choose(4) == 0 {
		c.stop()
		return 0, os.ErrDeadlineExceeded
	}
	if c.writes--; c.writes == 0 {
		return 0, c.end
	}
	c.out = append(c.out, b...)
	return len(b), nil
}

func (c *fuzzConn) CloseWrite() error                { return nil }
func (c *fuzzConn) Close() error                     { return nil }
func (c *fuzzConn) SetDeadline(time.Time) error      { return nil }
func (c *fuzzConn) SetReadDeadline(time.Time) error  { return nil }
func (c *fuzzConn) SetWriteDeadline(time.Time) error { return nil }

// passing is what a direction should pass on: the accepted messages, where the next one starts, and why it ends.
type passing struct {
	messages [][]byte
	offset   int64
	cause    cause
	err      error
	path     string
}

// scanned returns what should be passed on of a stream, by a Scanner over all of it.
func scanned(b []byte, o *options) passing {
	s := capvet.NewScanner(bytes.NewReader(b), &o.limits)
	if o.packed[client] {
		s = capvet.NewPackedScanner(bytes.NewReader(b), &o.limits)
	}
	p := passing{cause: closed}
	for s.Scan() {
		p.messages = append(p.messages, append([]byte(nil), s.Message().Bytes()...))
	}
	if p.offset = s.Offset(); s.Err() != nil {
		p.cause, p.err = refused, s.Err()
	}
	var refusal *capvet.Refusal
	if errors.As(p.err, &refusal) {
		p.path = refusal.Path()
	}
	return p
}

// fuzzOptions reads the arguments of an input.
func fuzzOptions(data []byte) *options {
	number := func(b []byte, otherwise uint64) uint64 {
		n := uint64(b[0]) | uint64(b[1])<<8
		if n == 0 {
			return otherwise
		}
		return n
	}
	o := &options{memory: 1 << 30, idleTimeout: time.Hour, messageTimeout: time.Hour, vetted: [2]bool{true, true}}
	o.limits = capvet.Limits{MessageWords: number(data[4:], 1<<23), Charge: number(data[8:], 1<<16), Depth: uint32(number(data[2:], 64))}
	if o.limits.Depth > 256 {
		o.limits.Depth = 256
	}
	o.limits.AllowNonstrict, o.limits.AllowAmplified = data[0]&2 != 0, data[0]&4 != 0
	o.limits.Exclusive, o.packed = data[1]&8 != 0, [2]bool{data[1]&16 != 0, data[1]&32 != 0}
	if data[1]&64 != 0 {
		o.memory = 5000
	}
	o.vetted[requests] = data[1]&128 == 0
	return o
}

var fuzzMetrics = newMetrics(&guard{options: &options{}, log: &logger{}})

// fuzzSession is a session between these ends, with the options of an input.
func fuzzSession(o *options, from, to half) *session {
	g := &guard{options: o, metrics: fuzzMetrics, memory: budget{most: o.memory}, running: context.Background(), log: &logger{}}
	c := &caller{conn: from, source: fuzzAddresses[0], peer: &peer{memory: budget{most: o.memory, whole: &g.memory}}}
	return newSession(g, c, to, nil)
}

// FuzzPump passes a stream through one direction of a session. Exactly the messages before the first refused one arrive, plain
// or packed, and the ending is about that one. No byte of the budget is in use afterwards.
func FuzzPump(f *testing.F) {
	seeds(f)
	f.Fuzz(func(t *testing.T, data []byte) {
		if len(data) < 16 || len(data) > 1<<17 {
			return
		}
		o, stream := fuzzOptions(data), data[16:]
		state := uint64(data[12]) | uint64(data[13])<<8 | uint64(data[14])<<16
		ends := []error{io.EOF, errGone, net.ErrClosed}
		from := &fuzzConn{state: state, rest: stream, end: ends[int(data[14]>>6)%len(ends)]}
		to := &fuzzConn{state: state, end: []error{errFull, os.ErrDeadlineExceeded}[data[14]>>5&1]}
		if data[15]%4 == 3 {
			to.writes = 1 + int(data[15]>>2)
		}
		s := fuzzSession(o, from, to)
		s.activity.touch()
		switch data[15] % 16 {
		case 4:
			from.stop = s.stop
		case 5:
			o.messageTimeout = 1
		case 6:
			o.idleTimeout = 1
		case 8:
			o.idleTimeout, o.messageTimeout = 0, 0
		case 9:
			to.stop = s.stop
		}
		e := s.pump(requests).run()
		if used := s.guard.memory.used.Load() + s.caller.peer.memory.used.Load(); used != 0 {
			t.Fatal(used, "bytes of the budget are in use")
		}
		if !o.vetted[requests] {
			if (e.cause == closed || e.err == errGone) && !bytes.Equal(to.out, stream) || !bytes.HasPrefix(stream, to.out) {
				t.Fatal("the bytes are not those that were sent")
			}
			return
		}
		if e.cause == idleTimeout && to.writes <= 0 && to.end == os.ErrDeadlineExceeded {
			o.idleTimeout = 1
		}
		compareEnding(t, o, scanned(stream, o), from.end, e, arrived(t, o, to.out))
	})
}

// arrived returns the plain bytes of what arrived.
func arrived(t *testing.T, o *options, out []byte) []byte {
	if !o.packed[server] {
		return out
	}
	plain, err := capvet.AppendUnpackedWords(nil, out, 1<<28)
	if err != nil {
		t.Fatal(err)
	}
	return plain
}

// isBefore reports whether a direction may end so before the first refused message, or where none is refused.
func isBefore(o *options, e ending) bool {
	switch e.cause {
	case noMemory:
		return o.memory < 1<<20
	case messageTimeout:
		return o.messageTimeout == 1
	case idleTimeout:
		return o.idleTimeout == 1
	case failed:
		return errors.Is(e.err, errFull) || errors.Is(e.err, errGone)
	}
	return e.cause == stopped
}

// compareEnding compares an ending, and what arrived before it, with what should be passed on. `end` is the error after the
// last byte.
func compareEnding(t *testing.T, o *options, want passing, end error, e ending, got []byte) {
	all := join(want.messages...)
	if o.packed[server] {
		// (the padding of a table is packed as zeros)
		all = padded(want.messages)
	}
	var cut *capvet.FrameError
	isCut := errors.As(want.err, &cut) && cut.Reason == capvet.ReasonTruncated
	if isBefore(o, e) {
		if !bytes.HasPrefix(all, got) || end != io.EOF && e.err == end && !bytes.Equal(all, got) {
			t.Fatal("other bytes arrived before the end")
		}
		return
	}
	if end != io.EOF && (isCut || want.cause == closed) {
		t.Fatal("the connection has failed, and that is not the end", e)
	}
	if e.cause != want.cause || int(e.message) != len(want.messages) || e.offset != want.offset || !bytes.Equal(all, got) {
		t.Fatalf("want %v after %d messages at %d, got %+v, the same bytes: %v", want.cause, len(want.messages), want.offset,
			e, bytes.Equal(all, got))
	}
	if want.err != nil && (e.reason() != (ending{err: want.err}).reason() || e.text() != (ending{err: want.err}).text()) {
		t.Fatal(e.text(), want.err)
	}
	if e.path != want.path {
		t.Fatal(e.path, want.path)
	}
}

// padded returns messages one after the other, with zeros as the padding of their tables.
func padded(messages [][]byte) []byte {
	var all []byte
	for _, b := range messages {
		start := len(all)
		all = append(all, b...)
		if count := int(b[0]) | int(b[1])<<8; count%2 == 1 {
			copy(all[start+4*(count+2):], []byte{0, 0, 0, 0})
		}
	}
	return all
}

// fuzzAddresses are those of a connection without a header.
var fuzzAddresses = [2]net.Addr{&net.TCPAddr{IP: net.IPv4(192, 0, 2, 1), Port: 3}, &net.TCPAddr{IP: net.IPv4(192, 0, 2, 2), Port: 4}}

func (c *fuzzConn) RemoteAddr() net.Addr { return fuzzAddresses[0] }
func (c *fuzzConn) LocalAddr() net.Addr  { return fuzzAddresses[1] }

// fuzzBinary is a header of version 2 with a command, a family and addresses.
func fuzzBinary(command, family byte, addresses ...byte) string {
	n := len(addresses)
	return "\r\n\r\n\x00\r\nQUIT\n" + string(append([]byte{command, family, byte(n >> 8), byte(n)}, addresses...))
}

// FuzzGreeting reads a header of the PROXY protocol. All bytes after it, and no others, can be read from the connection. The
// addresses of the header are valid, and the header that is sent to the server has the same ones, or none.
func FuzzGreeting(f *testing.F) {
	mapped, other := net.IPv4(10, 1, 2, 3).To16(), net.ParseIP("2001:db8::1")
	ports := []byte{0, 1, 0, 2}
	for _, text := range []string{"", "PROXY TCP4 127.0.0.1 127.0.0.2 1 2\r\nrest", "PROXY UNKNOWN\r\n", "PROXY TCP6 2001:db8::1 ::2 1 2\r\n",
		"PROXY TCP6 a b 1 2\r\n", fuzzBinary(0x21, 0x11, 127, 0, 0, 1, 127, 0, 0, 2, 0, 1, 0, 2) + "rest", fuzzBinary(0x20, 0),
		fuzzBinary(0x21, 0x12, 127, 0, 0, 1, 127, 0, 0, 2, 0, 1, 0, 2), fuzzBinary(0x21, 0x31, make([]byte, 216)...),
		fuzzBinary(0x21, 0x21, join(mapped, mapped, ports)...), fuzzBinary(0x21, 0x21, join(other, mapped, ports)...),
		fuzzBinary(0x21, 0x21, join(mapped, other, ports)...), fuzzBinary(0x21, 0x21, join(other, other, ports, []byte{4, 0, 1, 7})...)} {
		f.Add([]byte(text), uint32(7))
		f.Add([]byte(text), uint32(8))
	}
	f.Fuzz(func(t *testing.T, data []byte, state uint32) {
		conn := &fuzzConn{state: uint64(state), rest: data, end: io.EOF}
		g := &guard{options: &options{listenProxy: true, sendProxy: 1 + int(state%2)}}
		c := &caller{conn: conn, source: conn.RemoteAddr(), target: conn.LocalAddr()}
		isAnnounced, err := g.introduced(context.Background(), c)
		if err != nil {
			return
		}
		if c.source == nil || c.target == nil {
			t.Fatal("a connection without addresses")
		}
		version := byte(2)
		if data[0] == 'P' {
			version = 1
		}
		var got []byte
		b := make([]byte, 1+state%99)
		for {
			n, err := c.conn.Read(b)
			got = append(got, b[:n]...)
			if err == io.EOF {
				break
			} else if err != nil && !isTimeout(err) {
				t.Fatal(err)
			}
		}
		if end := headerEnd(data, version); !bytes.Equal(got, data[end:]) {
			t.Fatalf("want %q after the header, got %q", data[end:], got)
		}
		fuzzSentOn(t, g, c, isAnnounced)
	})
}

// fuzzSentOn compares the header that is sent to the server with the addresses of a client. Over TCP they are always sent, but for
// addresses of two families in version 1, which has no form for them.
func fuzzSentOn(t *testing.T, g *guard, c *caller, isAnnounced bool) {
	from, isTCP := c.source.(*net.TCPAddr)
	if isTCP && !prefixOf(c.source).Contains(from.AddrPort().Addr().Unmap()) {
		t.Fatal("a peer without an address: ", name(from))
	}
	counted, key := &peers{options: &options{maxPerPeer: 1}, memory: &budget{}}, keyOf(c.source, isAnnounced)
	first, why := counted.enter(key)
	if _, again := counted.enter(key); why != "" || (again == "") != (key == "") || (key == "") == (isTCP || isAnnounced) {
		t.Fatal("a peer has a connection too many, or none: ", name(c.source))
	}
	if counted.leave(first); len(counted.known) > 0 {
		t.Fatal("a peer is left: ", counted.known)
	}
	to := &fuzzConn{}
	if err := g.introduce(to, c.source, c.target); err != nil {
		if isTCP {
			t.Fatal(err, c.source, c.target)
		}
		return
	}
	reader := bufio.NewReader(bytes.NewReader(to.out))
	header, err := proxyproto.Read(reader)
	if err != nil || int(header.Version) != g.options.sendProxy || reader.Buffered() > 0 {
		t.Fatalf("%v in %q", err, to.out)
	}
	target, _ := c.target.(*net.TCPAddr)
	if header.Command == proxyproto.LOCAL {
		if isTCP && (header.Version == 2 || (from.IP.To4() == nil) == (target.IP.To4() == nil)) {
			t.Fatalf("%v to %v became %q", c.source, c.target, to.out)
		}
		return
	}
	if header.SourceAddr.String() != c.source.String() || header.DestinationAddr.String() != c.target.String() {
		t.Fatalf("%v to %v became %q", c.source, c.target, to.out)
	}
}

// headerEnd returns where the header of a version ends: after a line, or after the length that it has.
func headerEnd(data []byte, version byte) int {
	if version == 1 {
		return bytes.IndexByte(data, '\n') + 1
	}
	return 16 + int(data[14])<<8 + int(data[15])
}
