package main

import (
	"bytes"
	"errors"
	"io"
	"net"
	"os"
	"runtime"
	"strings"
	"sync"
	"testing"
	"time"

	"github.com/prometheus/client_golang/prometheus"
	"github.com/prometheus/client_golang/prometheus/testutil"
)

// testPatience is how long a test waits for what has to come. Only a hang exceeds it, however busy the machine is.
const testPatience = 2 * time.Minute

// patient are options for clients and servers that a busy machine runs slowly.
var patient = map[string]string{"--message-timeout": "10m", "--connect-timeout": "10m"}

var (
	// empty is a struct without words, and cycle a struct whose pointer leads back to itself.
	empty = []byte{0, 0, 0, 0, 1, 0, 0, 0, 0xfc, 0xff, 0xff, 0xff, 0, 0, 0, 0}
	cycle = []byte{0, 0, 0, 0, 1, 0, 0, 0, 0xfc, 0xff, 0xff, 0xff, 0, 0, 1, 0}
	// shared is a struct of two pointers to one word.
	shared = []byte{0, 0, 0, 0, 4, 0, 0, 0,
		0, 0, 0, 0, 0, 0, 2, 0, 4, 0, 0, 0, 1, 0, 0, 0, 0, 0, 0, 0, 1, 0, 0, 0, 7, 0, 0, 0, 0, 0, 0, 0}
)

// large returns a message of a number of words: the root is a list of all others.
func large(words int) []byte {
	b := make([]byte, 8+8*words)
	b[4], b[5], b[6] = byte(words), byte(words>>8), byte(words>>16)
	count := uint32(words-1)<<3 | 5
	b[8], b[12], b[13], b[14], b[15] = 1, byte(count), byte(count>>8), byte(count>>16), byte(count>>24)
	for i := 16; i < len(b); i++ {
		b[i] = byte(i * i >> 7)
	}
	return b
}

// join returns messages one after the other.
func join(messages ...[]byte) []byte { return bytes.Join(messages, nil) }

// output is what a guard writes.
type output struct {
	lock sync.Mutex
	text strings.Builder
}

func (o *output) Write(b []byte) (int, error) {
	o.lock.Lock()
	defer o.lock.Unlock()
	return o.text.Write(b)
}

func (o *output) String() string {
	o.lock.Lock()
	defer o.lock.Unlock()
	return o.text.String()
}

// rig is a guard in front of a server that the test plays.
type rig struct {
	t        *testing.T
	guard    *guard
	listener net.Listener
	backend  net.Listener
	log      *output
}

// eventually waits for something, and reports whether it holds.
func eventually(holds func() bool) bool {
	for deadline := time.Now().Add(testPatience); time.Now().Before(deadline); time.Sleep(5 * time.Millisecond) {
		if holds() {
			return true
		}
	}
	return false
}

// until waits for something that has to hold.
func until(t *testing.T, what string, holds func() bool) {
	t.Helper()
	if !eventually(holds) {
		t.Error("never: " + what)
	}
}

// descriptors returns how many descriptors are open.
func descriptors() int {
	files, err := os.ReadDir("/proc/self/fd")
	if err != nil {
		return -1
	}
	return len(files)
}

// nothingLeft compares goroutines and descriptors at the end of a test with those of now.
func nothingLeft(t *testing.T) {
	routines, files := runtime.NumGoroutine(), descriptors()
	t.Cleanup(func() {
		until(t, "goroutines and descriptors are as before", func() bool {
			return runtime.NumGoroutine() <= routines && descriptors() <= files
		})
	})
}

// newRig starts a guard with options.
func newRig(t *testing.T, words ...string) *rig {
	t.Helper()
	return newSmallRig(t, 0, words...)
}

// newSmallRig starts a guard whose buffers have so many bytes, also less than --size needs, or the default if most is 0.
func newSmallRig(t *testing.T, most int64, words ...string) *rig {
	t.Helper()
	nothingLeft(t)
	backend, err := net.Listen("tcp", "127.0.0.1:0")
	if err != nil {
		t.Fatal(err)
	}
	return rigBefore(t, most, backend, backend.Addr().String(), words...)
}

// rigBefore starts a guard before a listener.
func rigBefore(t *testing.T, most int64, backend net.Listener, connect string, words ...string) *rig {
	t.Helper()
	both := []string{"--listen", "127.0.0.1:0", "--connect", connect}
	if len(words) > 0 && words[0] == "--listen" {
		both = both[2:]
	}
	both = append(both, words...)
	for option, value := range patient {
		if !strings.Contains(strings.Join(words, " "), option) {
			both = append(both, option, value)
		}
	}
	o, err := parse(both)
	if err != nil {
		t.Fatal(err)
	}
	if most > 0 {
		o.memory, o.memoryPerPeer = most, most
	}
	r := &rig{t: t, backend: backend, log: &output{}}
	lines := newLogger(r.log, o.log == "json", o.logRate)
	t.Cleanup(lines.close)
	if err := bound(o, lines); err != nil {
		t.Fatal(err)
	}
	if r.guard, err = newGuard(o, lines); err != nil {
		t.Fatal(err)
	}
	t.Cleanup(r.guard.folder.close)
	if r.listener, err = r.guard.listen(); err != nil {
		t.Fatal(err)
	}
	go r.guard.serve(r.listener)
	t.Cleanup(func() {
		r.listener.Close()
		backend.Close()
		r.guard.drain(testPatience, nil)
		if used := r.guard.memory.used.Load(); used != 0 {
			t.Errorf("%d bytes of the budget are in use after the end", used)
		}
	})
	return r
}

// dial connects to the guard.
func (r *rig) dial() net.Conn {
	r.t.Helper()
	conn, err := net.Dial("tcp", r.listener.Addr().String())
	if err != nil {
		r.t.Fatal(err)
	}
	conn.SetDeadline(time.Now().Add(testPatience))
	r.t.Cleanup(func() { conn.Close() })
	return conn
}

// accept returns the connection of the guard to the server.
func (r *rig) accept() net.Conn {
	r.t.Helper()
	r.backend.(*net.TCPListener).SetDeadline(time.Now().Add(testPatience))
	conn, err := r.backend.Accept()
	if err != nil {
		r.t.Fatal(err)
	}
	conn.SetDeadline(time.Now().Add(testPatience))
	r.t.Cleanup(func() { conn.Close() })
	return conn
}

// pair connects a client and the server through the guard.
func (r *rig) pair() (client, server net.Conn) {
	r.t.Helper()
	client = r.dial()
	return client, r.accept()
}

// gets checks that these bytes come next.
func gets(t *testing.T, what string, conn io.Reader, want []byte) {
	t.Helper()
	got := make([]byte, len(want))
	if n, err := io.ReadFull(conn, got); err != nil || !bytes.Equal(got, want) {
		t.Fatalf("%s: got %d of %d bytes, equal: %v, %v", what, n, len(want), bytes.Equal(got, want), err)
	}
}

// ends checks that these bytes come, and then the end.
func ends(t *testing.T, what string, conn io.Reader, want []byte) {
	t.Helper()
	got, err := io.ReadAll(conn)
	if err != nil && (errors.Is(err, os.ErrDeadlineExceeded) || len(want) > 0) || !bytes.Equal(got, want) {
		t.Fatalf("%s: got %d bytes and not %d, %v", what, len(got), len(want), err)
	}
}

// sends writes bytes, of which the guard may not take all.
func sends(conn io.Writer, b []byte) { conn.Write(b) }

// logs checks that a line with all these words comes.
func (r *rig) logs(words ...string) {
	r.t.Helper()
	if !eventually(func() bool { return r.hasLine(words) }) {
		r.t.Errorf("never: a line with %q in %s", words, r.log)
	}
}

// hasLine reports whether a line of the log has all these words.
func (r *rig) hasLine(words []string) bool {
	for _, line := range strings.SplitAfter(r.log.String(), "\n") {
		found := 0
		for _, word := range words {
			if strings.Contains(line, word) {
				found++
			}
		}
		if found == len(words) {
			return true
		}
	}
	return false
}

// counts checks that a metric gets to a number.
func (r *rig) counts(what string, c prometheus.Collector, want float64) {
	r.t.Helper()
	until(r.t, what, func() bool { return testutil.ToFloat64(c) == want })
}
