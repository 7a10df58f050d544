package main

import (
	"bytes"
	"crypto/tls"
	"fmt"
	"io"
	"net"
	"path/filepath"
	"strings"
	"testing"
	"time"

	"github.com/prometheus/client_golang/prometheus/testutil"

	"capvet.invalid/capvet"
)

// fuzzBackend is a server that sends back what it gets, once its client has sent all.
type fuzzBackend struct {
	listener net.Listener
	begun    chan bool   // has an item once a connection has begun
	got      chan []byte // what came by a connection that has ended
}

// newFuzzBackend listens at a Unix socket, since ports would be used up. With a configuration it serves by TLS.
func newFuzzBackend(f *testing.F, path string, config *tls.Config) *fuzzBackend {
	listener, err := net.Listen("unix", path)
	if err != nil {
		f.Fatal(err)
	}
	if config != nil {
		listener = tls.NewListener(listener, config)
	}
	b := &fuzzBackend{listener, make(chan bool, 1), make(chan []byte, 64)}
	f.Cleanup(func() { listener.Close() })
	go func() {
		for {
			conn, err := listener.Accept()
			if err != nil {
				return
			}
			select {
			case b.begun <- true:
			default:
			}
			all, _ := io.ReadAll(conn)
			conn.Write(all[headerLength(all):])
			conn.Close()
			b.got <- all
		}
	}()
	return b
}

// forget forgets that a connection has begun.
func (b *fuzzBackend) forget() {
	select {
	case <-b.begun:
	default:
	}
}

// headerLength returns the length of a header of the PROXY protocol, or 0 if there is none.
func headerLength(b []byte) int {
	switch {
	case bytes.HasPrefix(b, []byte("PROXY ")):
		return headerEnd(b, 1)
	case bytes.HasPrefix(b, []byte("\r\n\r\n\x00\r\nQUIT\n")):
		return headerEnd(b, 2)
	}
	return 0
}

// fuzzHeaders are headers of the PROXY protocol, and what the log calls the peer. The last ones are wrong.
var fuzzHeaders = []struct{ text, peer string }{
	{"PROXY TCP4 127.0.0.1 127.0.0.2 1 2\r\n", "127.0.0.1:1"}, {"PROXY TCP6 ::1 ::2 1 2\r\n", "[::1]:1"}, {"PROXY UNKNOWN\r\n", "unix"},
	{"\r\n\r\n\x00\r\nQUIT\n\x21\x11\x00\x0c\x7f\x00\x00\x01\x7f\x00\x00\x02\x00\x01\x00\x02", "127.0.0.1:1"},
	{"PROXY TCP4 127.0.0.1\r\n", ""}, {"GET / HTTP/1.0\r\n\r\n", ""},
}

// fuzzWords are the options of a guard for an input.
func fuzzWords(data []byte, folder string) []string {
	number := func(b []byte, otherwise int) string {
		n := int(b[0]) | int(b[1])<<8
		if n == 0 {
			n = otherwise
		}
		return fmt.Sprint(n)
	}
	words := []string{"--listen=unix:" + filepath.Join(folder, "guard"), "--connect=unix:" + filepath.Join(folder, "backend"),
		"--size=" + number(data[4:], 1<<23), "--words=" + number(data[8:], 1<<16), "--depth=" + number([]byte{data[2], 0}, 64)}
	for i, word := range []string{"--log=json", "--allow-nonstrict", "--allow-amplified", "--connect-proxy=1", "--connect-proxy=2",
		"--listen-proxy", "--max-per-peer=1"} {
		if data[0]>>i&1 != 0 {
			words = append(words, word)
		}
	}
	for i, word := range []string{"--exclusive", "--listen-packed", "--connect-packed"} {
		if data[1]>>(3+i)&1 != 0 {
			words = append(words, word)
		}
	}
	return lastOnes(words)
}

// FuzzServe sends a stream through a guard to a server that sends back what it gets. The messages before the first refused one
// arrive, and no others. The log and the metrics say how the connection ended.
func FuzzServe(f *testing.F) {
	seeds(f)
	folder := f.TempDir()
	backend := newFuzzBackend(f, filepath.Join(folder, "backend"), nil)
	f.Fuzz(func(t *testing.T, data []byte) {
		if len(data) < 16 || len(data) > 1<<17 {
			return
		}
		o, err := parse(fuzzWords(data, folder))
		if err != nil {
			t.Fatal(err)
		}
		o.maxConnections, o.connectTimeout = 7-int(data[12]>>5), 10*time.Second
		out := &output{}
		lines := newLogger(out, o.log == "json", o.logRate)
		g, err := newGuard(o, lines)
		if err != nil {
			t.Fatal(err)
		}
		listener, err := o.listen.open(0)
		if err != nil {
			t.Fatal(err)
		}
		failing := &fuzzListener{Listener: listener, failures: int(data[14] % 16 / 15)}
		go g.serve(failing)
		header, peer := "", "unix"
		if o.listenProxy {
			it := fuzzHeaders[int(data[13])%len(fuzzHeaders)]
			header, peer = it.text, it.peer
		}
		replies, sent := fuzzClient(t, o.listen, []byte(header), data[16:])
		listener.Close()
		var got []byte
		if o.maxConnections > 0 && peer != "" {
			select {
			case got = <-backend.got:
			case <-time.After(testPatience):
				t.Fatal("nothing arrived: ", out)
			}
		}
		g.drain(testPatience, nil)
		lines.close()
		<-lines.ended
		log := out.String()
		if data[14]%16 == 15 {
			var line string
			if line, log, _ = strings.Cut(log, "\n"); !strings.Contains(line, "accept") || !strings.Contains(line, errFull.Error()) {
				t.Fatal(line)
			}
		}
		fuzzServed(t, g, o, peer, log, served{got, replies, data[16:], sent})
	})
}

// fuzzListener fails so often before it accepts connections.
type fuzzListener struct {
	net.Listener
	failures int
}

func (l *fuzzListener) Accept() (net.Conn, error) {
	if l.failures--; l.failures >= 0 {
		return nil, errFull
	}
	return l.Listener.Accept()
}

// fuzzClient sends a stream, and returns what comes back and whether all was sent.
func fuzzClient(t *testing.T, to address, header, stream []byte) (replies []byte, sent bool) {
	conn, err := net.Dial(to.network, to.place)
	if err != nil {
		t.Fatal(err)
	}
	defer conn.Close()
	done := make(chan bool)
	go func() {
		_, err := conn.Write(append(header, stream...))
		conn.(half).CloseWrite()
		done <- err == nil
	}()
	replies, _ = io.ReadAll(conn)
	return replies, <-done
}

// served is what the server and the client got, and what the client sent.
type served struct {
	got, replies, stream []byte
	sent                 bool
}

func fuzzServed(t *testing.T, g *guard, o *options, peer, log string, it served) {
	if used := g.memory.used.Load(); used != 0 || len(g.sessions) != 0 || len(g.peers.known) != 0 {
		t.Fatal(used, "bytes, sessions or peers are left")
	}
	if o.maxConnections == 0 || peer == "" {
		if len(it.got)+len(it.replies) > 0 || testutil.ToFloat64(g.metrics.accepted) != 0 {
			t.Fatal("a client was served")
		}
		if (peer == "" && o.maxConnections > 0) != strings.Contains(log, "greeting") {
			t.Fatal(log)
		}
		return
	}
	n := headerLength(it.got)
	if (n > 0) != (o.sendProxy > 0) {
		t.Fatal("a header of", n, "bytes")
	}
	want := scanned(it.stream, o)
	all := join(want.messages...)
	if o.packed[server] {
		all = padded(want.messages)
	}
	if got := arrived(t, o, it.got[n:]); !bytes.Equal(all, got) {
		t.Fatal("other bytes arrived")
	}
	if want.cause == refused {
		line := ending{err: want.err}.text()
		if !strings.Contains(log, line) || !strings.Contains(log, "requests") || !strings.Contains(log, peer) {
			t.Fatalf("no %q of %q in %q", line, peer, log)
		}
	} else if log != "" || !fuzzSame(o, all, it.replies) {
		t.Fatalf("%q, and %d bytes of %d come back", log, len(it.replies), len(all))
	}
	if testutil.ToFloat64(g.metrics.ended.WithLabelValues(string(want.cause))) != 1 {
		t.Fatal("no end by", want.cause)
	}
}

// fuzzSame reports whether replies are these messages, as the client gets them.
func fuzzSame(o *options, all, replies []byte) bool {
	if !o.packed[client] {
		return bytes.Equal(all, replies)
	}
	plain, err := capvet.AppendUnpackedWords(nil, replies, 1<<28)
	return err == nil && bytes.Equal(padding(all), padding(plain))
}

// padding returns the messages of b with zeros as the padding of their tables.
func padding(b []byte) []byte {
	var messages [][]byte
	for len(b) > 0 {
		n, err := capvet.FrameLength(b, &capvet.Limits{MessageWords: 1 << 28})
		if err != nil {
			break
		}
		messages, b = append(messages, b[:n]), b[n:]
	}
	return padded(messages)
}
