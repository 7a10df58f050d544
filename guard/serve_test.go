package main

import (
	"bytes"
	"context"
	"encoding/json"
	"io"
	"net"
	"net/http"
	"net/http/httptest"
	"os"
	"path/filepath"
	"strings"
	"syscall"
	"testing"
	"time"
)

// Each connection that was served has a line, if an option asks for it, with what it has passed on.
func TestLinesAboutConnections(t *testing.T) {
	r := newRig(t, "--log-connections", "--log", "json")
	client, server := r.pair()
	sends(client, join(empty, shared))
	gets(t, "requests", server, join(empty, shared))
	sends(server, large(5000))
	gets(t, "a reply", client, large(5000))
	client.Close()
	server.Close()
	r.logs(`"event":"connection"`)
	var got record
	if err := json.Unmarshal([]byte(r.log.String()), &got); err != nil {
		t.Fatal(err)
	}
	if *got.Requests != (traffic{2, 56}) || *got.Replies != (traffic{1, 40008}) || got.Cause != "closed" || *got.Seconds <= 0 ||
		got.Server != r.backend.Addr().String() || got.Peer != client.LocalAddr().String() {
		t.Error(r.log)
	}
	text := newRig(t, "--log-connections")
	client, server = text.pair()
	sends(client, join(empty, cycle))
	ends(t, "the server", server, empty)
	ends(t, "the client", client, nil)
	text.logs(client.LocalAddr().String(), " connection: refused after ", " s, requests 1 messages 16 bytes, replies 0 messages 0 bytes, server 127.")
}

// What the guard turns away has a line too.
func TestLinesAboutPlaces(t *testing.T) {
	r := newRig(t, "--max-connections", "2", "--max-per-peer", "1")
	first, _ := r.pair()
	second := r.dial()
	ends(t, "a second connection", second, nil)
	r.logs(second.LocalAddr().String() + " max_per_peer")
	until(t, "its place is free", func() bool { return r.guard.open.Load() == 1 })
	r.guard.open.Add(1)
	third := r.dial()
	ends(t, "a third connection", third, nil)
	r.logs(third.LocalAddr().String() + " max_connections")
	r.guard.open.Add(-1)
	r.listener.Close()
	go r.guard.drain(time.Millisecond, nil)
	ends(t, "a connection that is cut", first, nil)
	r.logs(first.LocalAddr().String(), " message 0: stopped offset 0")
	r.logs(" cut: 1 connections")
}

// A peer that sends more than its rates is read more slowly, on all its connections together.
func TestRates(t *testing.T) {
	for _, words := range [][]string{{"--message-rate", "100"}, {"--byte-rate", "1600"}, {"--message-rate", "100", "--listen-packed"}} {
		r := newRig(t, words...)
		begin := time.Now()
		for i := 0; i < 2; i++ {
			client, server := r.pair()
			many, want := bytes.Repeat(empty, 100), bytes.Repeat(empty, 101)
			if r.guard.options.packed[0] {
				many = bytes.Repeat(mustPack(t, empty), 100)
			}
			sends(client, many)
			one := many[:len(many)/100]
			go sends(client, one)
			gets(t, "all messages", server, want)
		}
		// (a second's worth may come at once, and what is above it is waited for)
		if took := time.Since(begin); took < 700*time.Millisecond {
			t.Error(words, took)
		}
		r.counts("messages", r.guard.metrics.directions[requests].messages, 202)
	}
}

// ready returns the status of /ready, after a new check.
func (r *rig) ready() int {
	r.guard.servers.ready.at = 0
	w := httptest.NewRecorder()
	r.guard.handler().ServeHTTP(w, httptest.NewRequest("GET", "/ready", nil))
	return w.Code
}

// passesTo sends a message to this server.
func (r *rig) passesTo(at net.Listener) {
	r.t.Helper()
	client := r.dial()
	server, err := at.Accept()
	if err != nil {
		r.t.Fatal(err)
	}
	defer server.Close()
	sends(client, empty)
	gets(r.t, "a request", server, empty)
	client.Close()
	server.Close()
	r.logs("server " + at.Addr().String())
}

// The first server that can be reached is connected to, and /ready says whether one can.
func TestSeveralServers(t *testing.T) {
	second, err := net.Listen("tcp", "127.0.0.1:0")
	if err != nil {
		t.Fatal(err)
	}
	defer second.Close()
	r := newRig(t, "--connect", second.Addr().String(), "--log-connections")
	r.passesTo(r.backend)
	if status := r.ready(); status != http.StatusOK {
		t.Error(status)
	}
	r.accept().Close()
	r.backend.Close()
	r.passesTo(second)
	r.counts("failures", r.guard.metrics.unreached.WithLabelValues(r.backend.Addr().String()), 1)
	// (the one that failed is tried last for a while, which is longer here)
	if failed := &r.guard.servers.all[0].failed; failed.Load() == 0 {
		t.Error("no time of a failure")
	} else {
		failed.Store(int64(now() + time.Hour))
	}
	r.passesTo(second)
	r.counts("failures", r.guard.metrics.unreached.WithLabelValues(r.backend.Addr().String()), 1)
	second.Close()
	if status := r.ready(); status != http.StatusServiceUnavailable {
		t.Error(status)
	}
	r.logs("not ready: ")
	ends(t, "a client without a server", r.dial(), nil)
	r.logs(" connect: ", "; ")
}

// Counters and limits are there before anything has happened.
func TestMetricsFromTheStart(t *testing.T) {
	r := newRig(t, "--max-connections", "77", "--refused-folder", t.TempDir())
	w := httptest.NewRecorder()
	r.guard.handler().ServeHTTP(w, httptest.NewRequest("GET", "/metrics", nil))
	for _, line := range []string{
		`connections{state="greeting"} 0`, `connections{state="connecting"} 0`, `connections_rejected_total{cause="max_per_peer"} 0`,
		`connections_ended_total{cause="refused"} 0`, `refusals_total{direction="replies",reason="OutOfSegment"} 0`,
		`limit{limit="max_connections"} 77`, `limit{limit="memory_per_peer"} 2.68435456e+08`, `build_info{go="go1.`,
		`handshakes_total{result="failed",side="client"} 0`, `handshake_seconds_count{side="server"} 0`,
		`log_lines_dropped_total{cause="queue"} 0`, `log_lines_dropped_total{cause="rate"} 0`,
		`certificate_expiry_timestamp_seconds{side="client"} 0`, `refused_messages_total{result="dropped"} 0`,
		`connect_failures_total{server="127.0.0.1:`,
	} {
		if !strings.Contains(w.Body.String(), "\ncapvet_guard_"+line) {
			t.Errorf("no %s in %s", line, w.Body)
		}
	}
}

// Askers who say nothing take few descriptors, and keep nobody from the metrics.
func TestSilentAskers(t *testing.T) {
	r := newRig(t)
	listener, err := net.Listen("tcp", "127.0.0.1:0")
	if err != nil {
		t.Fatal(err)
	}
	server, held := r.guard.httpServer(), &few{Listener: listener}
	go server.Serve(held)
	defer server.Close()
	for i := 0; i < 3*maxAskers; i++ {
		conn, err := net.Dial("tcp", listener.Addr().String())
		if err != nil {
			t.Fatal(err)
		}
		defer conn.Close()
		sends(conn, []byte("GET /"))
	}
	by := &http.Client{Transport: &http.Transport{DisableKeepAlives: true}, Timeout: testPatience}
	answer, err := by.Get("http://" + listener.Addr().String() + "/health")
	if err != nil || answer.StatusCode != http.StatusOK {
		t.Fatal(answer, err)
	}
	answer.Body.Close()
	held.lock.Lock()
	defer held.lock.Unlock()
	if len(held.open) > maxAskers {
		t.Error(len(held.open), "connections are open")
	}
}

// started runs a guard as main does.
func started(t *testing.T, words ...string) (out *output, signals chan os.Signal, status chan int) {
	t.Helper()
	out, signals, status = &output{}, make(chan os.Signal, 8), make(chan int, 1)
	go func() { status <- run(words, io.Discard, out, signals) }()
	return out, signals, status
}

// metricsAt returns the metrics of a guard that serves them at a Unix socket.
func metricsAt(t *testing.T, path string) string {
	t.Helper()
	dial := func(context.Context, string, string) (net.Conn, error) { return net.Dial("unix", path) }
	by := &http.Client{Transport: &http.Transport{DialContext: dial, DisableKeepAlives: true}, Timeout: testPatience}
	answer, err := by.Get("http://guard/metrics")
	if err != nil {
		t.Fatal(err)
	}
	defer answer.Body.Close()
	text, err := io.ReadAll(answer.Body)
	if err != nil {
		t.Fatal(err)
	}
	return string(text)
}

// endsByTwo starts a guard that has a client in a stage that doesn't end, and asks it to end. The first signal waits. The second one
// ends it long before the stage would.
func endsByTwo(t *testing.T, path, stage string, words ...string) {
	t.Helper()
	out, signals, status := started(t, append(words, "--listen", "unix:"+path, "--connect", "unix:"+path+".server", "--connect-timeout", "1h",
		"--drain-timeout", "0", "--metrics", "unix:"+path+".metrics")...)
	until(t, "it listens", func() bool { return strings.Contains(out.String(), "listening") })
	for _, at := range []string{path, path + ".metrics"} {
		conn, err := net.Dial("unix", at)
		if err != nil {
			t.Fatal(err)
		}
		defer conn.Close()
	}
	until(t, "the client is "+stage, func() bool {
		return strings.Contains(metricsAt(t, path+".metrics"), `capvet_guard_connections{state="`+stage+`"} 1`)
	})
	signals <- syscall.SIGTERM
	until(t, "it drains", func() bool { return strings.Contains(out.String(), "draining") })
	select {
	case <-status:
		t.Error(words, "is cut by the first signal")
	case <-time.After(300 * time.Millisecond):
	}
	signals <- syscall.SIGTERM
	select {
	case got := <-status:
		if got != statusDone {
			t.Error(words, got, out)
		}
	case <-time.After(testPatience):
		t.Error(words, "doesn't end", out)
	}
}

// A second signal ends handshakes, connections to a server that doesn't answer, and the metrics, at once.
func TestTheSecondSignal(t *testing.T) {
	nothingLeft(t)
	ours := newAuthority(t)
	cert, key := ours.sign("guard")
	path := filepath.Join(t.TempDir(), "guard")
	silent, err := net.Listen("unix", path+".server")
	if err != nil {
		t.Fatal(err)
	}
	defer silent.Close()
	endsByTwo(t, path, "greeting", "--listen-cert", cert, "--listen-key", key)
	endsByTwo(t, path, "greeting", "--listen-proxy")
	endsByTwo(t, path, "connecting", "--connect-tls", "--connect-name", "localhost")
	endsByTwo(t, path, "open")
}

// A loop to itself, and a port that is none, are refused at the start.
func TestLoops(t *testing.T) {
	nothingLeft(t)
	path := filepath.Join(t.TempDir(), "guard")
	taken, err := net.Listen("tcp", "127.0.0.1:0")
	if err != nil {
		t.Fatal(err)
	}
	_, port, _ := net.SplitHostPort(taken.Addr().String())
	taken.Close()
	for _, row := range [][2]string{{"unix:" + path, "unix:" + path}, {":" + port, "localhost:" + port}, {"127.0.0.1:" + port, ":" + port}} {
		out, _, status := started(t, "--listen", row[0], "--connect", row[1])
		if got := <-status; got != statusError || !eventually(func() bool { return strings.Contains(out.String(), "leads back to --listen") }) {
			t.Error(row, got, out)
		}
	}
	out, _, status := started(t, "--listen", "unix:"+path, "--connect", "unix:"+path, "--log", "json")
	if got := <-status; got != statusError || !strings.HasPrefix(out.String(), `{"time":`) {
		t.Error(got, out)
	}
}

// A guard that ends leaves the socket of its successor. The socket has the mode of an option.
func TestSocketsOfSuccessors(t *testing.T) {
	at := address{"unix", filepath.Join(t.TempDir(), "socket")}
	first, err := at.open(0o660)
	if err != nil {
		t.Fatal(err)
	}
	if info, err := os.Stat(at.place); err != nil || info.Mode().Perm() != 0o660 {
		t.Error(info, err)
	}
	if err := os.Remove(at.place); err != nil {
		t.Fatal(err)
	}
	second, err := at.open(0)
	if err != nil {
		t.Fatal(err)
	}
	first.Close()
	if conn, err := net.Dial("unix", at.place); err != nil {
		t.Error("the socket of the successor is gone: ", err)
	} else {
		conn.Close()
	}
	second.Close()
	second.Close()
	if _, err := os.Lstat(at.place); err == nil {
		t.Error("the socket is left")
	}
}

// Of many guards that begin at a stale socket exactly one listens.
func TestStartsAtTheSameTime(t *testing.T) {
	at := address{"unix", filepath.Join(t.TempDir(), "socket")}
	for round := 0; round < 50; round++ {
		leaveSocket(t, at.place)
		found := make(chan net.Listener, 3)
		for i := 0; i < cap(found); i++ {
			go func() {
				listener, err := at.open(0)
				if err != nil {
					listener = nil
				}
				found <- listener
			}()
		}
		listening := 0
		var all []net.Listener
		for i := 0; i < cap(found); i++ {
			if it := <-found; it != nil {
				listening++
				all = append(all, it)
			}
		}
		if listening != 1 {
			t.Error(listening, "listen")
		}
		for _, it := range all {
			it.Close()
		}
	}
}
