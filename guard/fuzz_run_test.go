package main

import (
	"bytes"
	"context"
	"crypto/tls"
	"io"
	"net"
	"net/http"
	"os"
	"path/filepath"
	"strings"
	"syscall"
	"testing"
	"time"
)

// fuzzPatience is how long a run waits for what has to come. (Go ends a fuzz target that takes 10 seconds, but not one that it only runs
// over its seeds)
var fuzzPatience = testPatience

func init() {
	for _, word := range os.Args {
		if strings.HasPrefix(word, "-test.fuzz=") || strings.HasPrefix(word, "-test.fuzzworker") {
			fuzzPatience = 8 * time.Second
		}
	}
}

// fuzzPlace is what is at the address of a guard before it begins.
type fuzzPlace int

const (
	freePlace fuzzPlace = iota + 2 // (also below)
	stalePlace
	filePlace
	servedPlace
	missingPlace
	systemdPlace
)

// fuzzEnd is what comes before the signal that ends a guard.
type fuzzEnd int

const (
	plainEnd  fuzzEnd = iota
	readAgain         // the certificates are read again
	unread            // they can't be read
	twice             // the client is still there, and the signal comes twice
)

// fuzzWorld is what all runs share: the files of TLS, and servers with it and without it.
type fuzzWorld struct {
	folder, cert, key string
	ours              *authority
	pair              tls.Certificate
	servers           [2]*fuzzBackend
}

func newFuzzWorld(f *testing.F) *fuzzWorld {
	w := &fuzzWorld{folder: f.TempDir(), ours: newAuthority(f)}
	w.cert, w.key = w.ours.sign("guard")
	var err error
	if w.pair, err = tls.LoadX509KeyPair(w.cert, w.key); err != nil {
		f.Fatal(err)
	}
	w.servers[0] = newFuzzBackend(f, w.path("plain"), nil)
	w.servers[1] = newFuzzBackend(f, w.path("tls"), &tls.Config{Certificates: []tls.Certificate{w.pair},
		ClientAuth: tls.RequireAndVerifyClientCert, ClientCAs: w.ours.pool()})
	return w
}

func (w *fuzzWorld) path(name string) string { return filepath.Join(w.folder, name) }

// fuzzRun is one run of a guard.
type fuzzRun struct {
	world          *fuzzWorld
	place          fuzzPlace
	end            fuzzEnd
	isJSON         bool
	isSecret       [2]bool // by the side: whether it uses TLS
	hasMetrics     bool
	isPacked       bool
	isExclusive    bool
	isWrong        bool // a peer shows no certificate or has another name, or the server isn't there
	missing        int  // which of the options of fuzzMissing
	listen, metric string
	backend        *fuzzBackend
	signals        chan os.Signal
	out            output
	status         chan int
}

func (w *fuzzWorld) run(data []byte) *fuzzRun {
	kind, flag := data[1]>>3, func(n int) bool { return data[0]>>n&1 != 0 }
	r := &fuzzRun{world: w, place: fuzzPlace(kind % 8), end: fuzzEnd(kind / 8), isJSON: flag(0), isSecret: [2]bool{flag(1), flag(2)},
		hasMetrics: flag(3), isPacked: flag(4), isExclusive: flag(5), isWrong: flag(6), missing: int(data[12]) % len(fuzzMissing),
		listen: w.path("guard"), metric: w.path("metrics"), backend: w.servers[0], signals: make(chan os.Signal, 2),
		status: make(chan int, 1)}
	if r.isSecret[server] {
		r.backend = w.servers[1]
	}
	return r
}

// fuzzMissing are options of which a file or a folder isn't there, or isn't what it should be. CERT and KEY are those that are.
var fuzzMissing = []string{
	"--listen=unix:none/guard", "--metrics=unix:none/metrics", "--listen-cert=none --listen-key=KEY",
	"--listen-cert=CERT --listen-key=CERT", "--listen-cert=CERT --listen-key=KEY --listen-client-ca=KEY",
	"--listen-cert=CERT --listen-key=KEY --listen-client-ca=none",
	"--connect-tls --connect-name=a --connect-ca=none", "--connect-tls --connect-name=a --connect-ca=KEY",
	"--connect-tls --connect-name=a --connect-cert=CERT --connect-key=none",
}

// words are the options of the guard.
func (r *fuzzRun) words() []string {
	w := r.world
	to := r.backend.listener.Addr().String()
	if r.isWrong && r.isReached() && !r.isSecret[server] {
		to = w.path("nobody")
	}
	words := []string{"--listen=unix:" + r.listen, "--connect=unix:" + to, "--max-connections=9"}
	add := func(is bool, more ...string) {
		if is {
			words = append(words, more...)
		}
	}
	add(r.isJSON, "--log=json")
	add(r.isSecret[client], "--listen-cert="+w.cert, "--listen-key="+w.key, "--listen-client-ca="+w.ours.file)
	add(r.isSecret[server], "--connect-tls", "--connect-ca="+w.ours.file, "--connect-cert="+w.cert, "--connect-key="+w.key)
	add(r.isSecret[server] && r.isWrong, "--connect-name=other.example")
	add(r.isSecret[server] && !r.isWrong, "--connect-name=localhost")
	add(r.hasMetrics, "--metrics=unix:"+r.metric)
	add(r.isPacked, "--listen-packed", "--connect-packed")
	add(r.isExclusive, "--exclusive")
	add(r.place == systemdPlace, "--listen=systemd:none")
	missing := strings.NewReplacer("CERT", w.cert, "KEY", w.key, "none", w.path("none")).Replace(fuzzMissing[r.missing])
	add(r.place == missingPlace, strings.Fields(missing)...)
	return lastOnes(words)
}

// lastOnes returns options without those that are given again later.
func lastOnes(words []string) (last []string) {
	name := func(word string) string { return strings.SplitN(word, "=", 2)[0] }
	for i, word := range words {
		isLast := true
		for _, later := range words[i+1:] {
			isLast = isLast && name(later) != name(word)
		}
		if isLast {
			last = append(last, word)
		}
	}
	return last
}

// isReached reports whether the guard takes the client, and so connects to the server.
func (r *fuzzRun) isReached() bool { return !r.isWrong || !r.isSecret[client] }

// hasServer reports whether the server gets a connection.
func (r *fuzzRun) hasServer() bool { return !r.isWrong || r.isReached() && r.isSecret[server] }

// FuzzRun runs the guard as `main` does, over Unix sockets, plain or by TLS, until signals end it. It listens only where
// nobody else does, and leaves what is there. The messages before the first refused one arrive, and no others. The log, the
// metrics and the status say what has happened.
func FuzzRun(f *testing.F) {
	seeds(f)
	w := newFuzzWorld(f)
	f.Fuzz(func(t *testing.T, data []byte) {
		if len(data) < 16 || len(data) > 1<<17 {
			return
		}
		r := w.run(data)
		defer close(r.signals)
		if r.place > stalePlace {
			r.checkTaken(t)
			return
		}
		if r.place == stalePlace {
			leaveSocket(t, r.listen)
		}
		r.start()
		r.says(t, "listening")
		r.readAgain(t)
		r.serve(t, data[16:])
		for _, path := range []string{r.listen, r.metric} {
			if _, err := os.Lstat(path); err == nil {
				t.Fatal(path, "is left")
			}
		}
	})
}

func (r *fuzzRun) start() {
	go func() { r.status <- run(r.words(), io.Discard, &r.out, r.signals) }()
}

// says waits for a word in the log.
func (r *fuzzRun) says(t *testing.T, word string) {
	t.Helper()
	r.holds(t, word, func() bool { return strings.Contains(r.out.String(), word) })
}

// holds waits for something that has to hold.
func (r *fuzzRun) holds(t *testing.T, what string, holds func() bool) {
	t.Helper()
	for deadline := time.Now().Add(fuzzPatience); !holds(); time.Sleep(100 * time.Microsecond) {
		if time.Now().After(deadline) {
			t.Fatalf("never: %s, in %q", what, r.out.String())
		}
	}
}

// ends waits for the end, and compares the status.
func (r *fuzzRun) ends(t *testing.T, status int) {
	t.Helper()
	if got := await(t, "the guard ends", r.status); got != status {
		t.Fatalf("the status %d and not %d: %q", got, status, r.out.String())
	}
}

// await returns what has to come.
func await[T any](t *testing.T, what string, from <-chan T) (it T) {
	t.Helper()
	select {
	case it = <-from:
	case <-time.After(fuzzPatience):
		t.Fatal("never: ", what)
	}
	return it
}

// leaveSocket leaves a Unix socket at which nobody listens.
func leaveSocket(t *testing.T, path string) {
	listener, err := net.Listen("unix", path)
	if err != nil {
		t.Fatal(err)
	}
	listener.(*net.UnixListener).SetUnlinkOnClose(false)
	listener.Close()
}

// checkTaken runs a guard that can't listen, or whose files can't be read. It leaves what is there.
func (r *fuzzRun) checkTaken(t *testing.T) {
	defer os.Remove(r.listen)
	switch r.place {
	case filePlace:
		if err := os.WriteFile(r.listen, []byte("a file"), 0o600); err != nil {
			t.Fatal(err)
		}
	case servedPlace:
		listener, err := net.Listen("unix", r.listen)
		if err != nil {
			t.Fatal(err)
		}
		defer listener.Close()
	}
	r.start()
	r.ends(t, statusError)
	if text, err := os.ReadFile(r.listen); r.place == filePlace && string(text) != "a file" {
		t.Fatal("the file has changed: ", err)
	}
	if conn, err := net.Dial("unix", r.listen); r.place == servedPlace {
		if err != nil {
			t.Fatal("another one no longer listens: ", err)
		}
		conn.Close()
	}
	log := r.out.String()
	if strings.HasPrefix(log, "{") != r.isJSON || !strings.Contains(log, "fault") || strings.Contains(log, "listening") {
		t.Fatal(log)
	}
}

// readAgain has the certificates read again. Those that can't be read are not used.
func (r *fuzzRun) readAgain(t *testing.T) {
	if r.end != readAgain && r.end != unread {
		return
	}
	want := "certificates are read"
	if r.end == unread {
		good, err := os.ReadFile(r.world.key)
		if err != nil {
			t.Fatal(err)
		}
		defer os.WriteFile(r.world.key, good, 0o600)
		if err := os.WriteFile(r.world.key, []byte("no key"), 0o600); err != nil {
			t.Fatal(err)
		}
		if r.isSecret[client] || r.isSecret[server] {
			want = "the old certificates stay"
		}
	}
	r.signals <- syscall.SIGHUP
	r.says(t, want)
}

// dial connects to the guard, by TLS if it is so.
func (r *fuzzRun) dial(t *testing.T) half {
	conn, err := net.Dial("unix", r.listen)
	if err != nil {
		t.Fatal(err)
	}
	conn.SetDeadline(time.Now().Add(fuzzPatience))
	if !r.isSecret[client] {
		return conn.(half)
	}
	config := &tls.Config{RootCAs: r.world.ours.pool(), ServerName: "localhost", Certificates: []tls.Certificate{r.world.pair}}
	if r.isWrong {
		config.Certificates = nil
	}
	return tls.Client(conn, config)
}

// serve sends a stream, ends the guard, and looks at what has arrived.
func (r *fuzzRun) serve(t *testing.T, stream []byte) {
	conn := r.dial(t)
	defer conn.Close()
	sent := make(chan bool)
	go func() {
		conn.Write(stream)
		if r.end != twice {
			conn.CloseWrite()
		}
		close(sent)
	}()
	replied := make(chan []byte, 1)
	go func() {
		replies, _ := io.ReadAll(conn)
		conn.Close()
		replied <- replies
	}()
	o, err := parse(r.words())
	if err != nil {
		t.Fatal(err)
	}
	want := scanned(stream, o)
	all := join(want.messages...)
	if r.isPacked {
		all = padded(want.messages)
	}
	if r.end == twice {
		r.endTwice(t, want)
	}
	var got []byte
	if r.hasServer() {
		got = await(t, "bytes arrive", r.backend.got)
		r.backend.forget()
	}
	await(t, "all is sent", sent)
	replies := await(t, "the replies end", replied)
	if r.end != twice {
		r.checkMetrics(t, want)
		r.signals <- syscall.SIGTERM
		r.ends(t, statusDone)
	}
	r.check(t, o, want, all, arrived(t, o, got), replies)
}

// endTwice ends the guard by two signals, though its client is there.
func (r *fuzzRun) endTwice(t *testing.T, want passing) {
	if r.hasServer() {
		await(t, "the server is connected to", r.backend.begun)
	}
	r.signals <- syscall.SIGTERM
	r.says(t, "draining")
	if r.hasMetrics && want.cause == closed && !r.isWrong {
		r.holds(t, "the guard is draining", func() bool { return r.get(t, "/health") == "draining\n" })
	}
	r.signals <- syscall.SIGTERM
	r.ends(t, statusDone)
}

// check compares what arrived, what came back and what the log says.
func (r *fuzzRun) check(t *testing.T, o *options, want passing, all, got, replies []byte) {
	log := r.out.String()
	if !strings.Contains(log, "draining") || !strings.Contains(log, "ended") || strings.HasPrefix(log, "{") != r.isJSON {
		t.Fatal(log)
	}
	if r.end == twice {
		if !bytes.HasPrefix(all, got) || len(replies) > 0 {
			t.Fatal("other bytes arrived before the end")
		}
		return
	}
	if r.isWrong {
		if len(got)+len(replies) > 0 || !strings.Contains(log, "greeting") && !strings.Contains(log, "connect") {
			t.Fatalf("a client was served: %q", log)
		}
		return
	}
	if !bytes.Equal(all, got) {
		t.Fatal("other bytes arrived")
	}
	if want.cause == closed && !fuzzSame(o, all, replies) {
		t.Fatal("other bytes come back")
	}
	if want.cause == refused && !strings.Contains(log, ending{err: want.err}.text()) {
		t.Fatal(log)
	}
}

// get asks the metrics' address for a page.
func (r *fuzzRun) get(t *testing.T, path string) string {
	dial := func(context.Context, string, string) (net.Conn, error) { return net.Dial("unix", r.metric) }
	by := &http.Client{Transport: &http.Transport{DialContext: dial, DisableKeepAlives: true}, Timeout: fuzzPatience}
	answer, err := by.Get("http://guard" + path)
	if err != nil {
		t.Fatal(err)
	}
	defer answer.Body.Close()
	text, err := io.ReadAll(answer.Body)
	if err != nil {
		t.Fatal(err)
	}
	return string(text)
}

// checkMetrics looks for the lines of the metrics, which come once the connection has ended.
func (r *fuzzRun) checkMetrics(t *testing.T, want passing) {
	if !r.hasMetrics {
		return
	}
	line := `connections_ended_total{cause="` + string(want.cause) + `"} 1`
	switch {
	case !r.isReached():
		line = `connections_rejected_total{cause="greeting"} 1`
	case r.isWrong:
		line = `connections_rejected_total{cause="connect"} 1`
	}
	r.holds(t, line, func() bool { return strings.Contains(r.get(t, "/metrics"), "\ncapvet_guard_"+line) })
	if text := r.get(t, "/health"); text != "ok\n" {
		t.Fatal(text)
	}
}
