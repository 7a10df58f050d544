package main

import (
	"context"
	"io"
	"net"
	"os"
	"path/filepath"
	"runtime/debug"
	"strconv"
	"strings"
	"testing"
)

func TestBuffers(t *testing.T) {
	b := newBuffer(&budget{most: 200000})
	if len(b.bytes) != small || b.isWide() {
		t.Error(len(b.bytes))
	}
	for _, step := range []struct {
		length, want int
		ok           bool
	}{{small, ample, true}, {ample, 2 * ample, true}, {2 * ample, 2 * ample, false}} {
		b.length = step.length
		if ok := b.fit(1 << 20); ok != step.ok || len(b.bytes) != step.want || b.length != step.length {
			t.Errorf("%+v: %v, %d", step, ok, len(b.bytes))
		}
		if used := b.budget.used.Load(); used != int64(len(b.bytes)) {
			t.Error(used)
		}
	}
	b.bytes[5], b.length = 7, 9
	b.drop(5)
	if b.length != 4 || b.bytes[0] != 7 {
		t.Error(b.held())
	}
	b.drop(4)
	b.shrink()
	if len(b.bytes) != small || b.budget.used.Load() != 0 {
		t.Error(len(b.bytes))
	}
	b.length = small
	if !b.fit(small+8) || len(b.bytes) != small+8 {
		t.Error(len(b.bytes))
	}
	b.widen()
	b.widen()
	b.widen()
	if len(b.bytes) < ample || len(b.bytes) > 4*ample {
		t.Error(len(b.bytes))
	}
	b.close()
	if used := b.budget.used.Load(); used != 0 {
		t.Error(used)
	}
}

// resident returns the bytes of memory that this process has.
func resident(t *testing.T) int64 {
	t.Helper()
	text, err := os.ReadFile("/proc/self/statm")
	if err != nil {
		t.Fatal(err)
	}
	pages, err := strconv.ParseInt(strings.Fields(string(text))[1], 10, 64)
	if err != nil {
		t.Fatal(err)
	}
	return pages * int64(os.Getpagesize())
}

// A large buffer that grows keeps what it holds. What it no longer needs is free at once, whatever the collector does.
func TestLargeBuffers(t *testing.T) {
	const most = 64 << 20
	defer debug.SetGCPercent(debug.SetGCPercent(-1))
	b, before := newBuffer(&budget{most: 2 * most}), resident(t)
	for b.length < most {
		free := b.free()
		for i := range free {
			free[i] = byte((b.length + i) * 7 >> 3)
		}
		if b.length = len(b.bytes); !b.fit(most) && b.length < most {
			t.Fatal(b.length)
		}
	}
	for i, it := range b.held() {
		if it != byte(i*7>>3) {
			t.Fatal(i, it)
		}
	}
	if used := resident(t) - before; used > most+most/8 {
		t.Error(used, "bytes for a buffer of", most)
	}
	b.close()
	if used := resident(t) - before; used > most/8 || b.budget.used.Load() != 0 {
		t.Error(used, "bytes are left")
	}
}

// The header that the server gets for one of a client's. Without a text there is none: the client is not served.
func TestHeadersForServers(t *testing.T) {
	const version2 = "\r\n\r\n\x00\r\nQUIT\n"
	mapped, other, ports := net.IPv4(10, 1, 2, 3).To16(), net.ParseIP("2001:db8::1"), []byte{0, 1, 0, 2}
	mixed := version2 + "\x21\x21\x00\x24" + string(join(mapped, other, ports))
	for _, row := range []struct{ from, one, two string }{
		{"PROXY TCP4 10.1.2.3 10.4.5.6 1 2\r\n", "PROXY TCP4 10.1.2.3 10.4.5.6 1 2\r\n",
			version2 + "\x21\x11\x00\x0c\x0a\x01\x02\x03\x0a\x04\x05\x06" + string(ports)},
		{"PROXY TCP6 2001:db8::1 2001:db8::1 1 2\r\n", "PROXY TCP6 2001:db8::1 2001:db8::1 1 2\r\n",
			version2 + "\x21\x21\x00\x24" + string(join(other, other, ports))},
		{mixed, "PROXY UNKNOWN\r\n", mixed},
		{version2 + "\x21\x21\x00\x24" + string(join(other, mapped, ports)), "PROXY UNKNOWN\r\n",
			version2 + "\x21\x21\x00\x24" + string(join(other, mapped, ports))},
		{"PROXY TCP6 a b 1 2\r\n", "", ""},
		{"PROXY TCP6 2001:db8::1 b 1 2\r\n", "", ""},
	} {
		for version, want := range []string{row.one, row.two} {
			g := &guard{options: &options{listenProxy: true, sendProxy: version + 1}}
			got := &fuzzConn{}
			c := &caller{conn: &fuzzConn{state: 1, rest: []byte(row.from), end: io.EOF}}
			_, err := g.introduced(context.Background(), c)
			if err == nil {
				err = g.introduce(got, c.source, c.target)
			}
			if (err == nil) != (want != "") || string(got.out) != want {
				t.Errorf("%q became %q, and not %q: %v", row.from, got.out, want, err)
			}
		}
	}
}

func TestPeers(t *testing.T) {
	o := &options{maxPerPeer: 2, memory: 1000, memoryPerPeer: 400}
	p := peers{options: o, memory: &budget{most: o.memory}}
	at := func(host string) string { return keyOf(&net.TCPAddr{IP: net.ParseIP(host), Port: 1}, false) }
	one, same, other := at("2001:db8::1"), at("2001:db8::2"), at("2001:db8:0:1::1")
	if one != same || one == other || at("10.0.0.1") == at("10.0.0.2") || at("::ffff:10.0.0.1") != at("10.0.0.1") {
		t.Error(one, same, other)
	}
	enters := func(key string, want cause) *peer {
		t.Helper()
		it, why := p.enter(key)
		if why != want {
			t.Error(key, why)
		}
		return it
	}
	first, second := enters(one, ""), enters(same, "")
	enters(one, manyOfPeer)
	third := enters(other, "")
	if first != second || first == third || !first.memory.take(400) || second.memory.take(1) || !third.memory.take(400) || p.memory.used.Load() != 800 {
		t.Error(first, second, third, p.memory.used.Load())
	}
	first.memory.give(400)
	p.leave(first)
	enters(one, "")
	enters(one, manyOfPeer)
	// (nobody says whose connections those of a Unix socket are, but for a proxy)
	for i := 0; i < 9; i++ {
		p.leave(enters(keyOf(&net.UnixAddr{Name: "/a"}, false), ""))
	}
	proxied := keyOf(&net.UnixAddr{Name: "/a"}, true)
	fourth := enters(proxied, "")
	enters(keyOf(&net.UnixAddr{Name: "/b"}, true), "")
	enters(proxied, manyOfPeer)
	for _, it := range []*peer{first, second, third, fourth, fourth} {
		p.leave(it)
	}
	if len(p.known) != 0 {
		t.Error(p.known)
	}
}

// A peer may connect so often in a second, also if it closes its connections. It is forgotten once that no longer counts.
func TestRateOfConnections(t *testing.T) {
	p := peers{options: &options{connectionRate: 5}, memory: &budget{}}
	const tries = 400
	served, begin := 0, now()
	for i := 0; i < tries; i++ {
		if it, why := p.enter("peer"); why == "" {
			served++
			p.leave(it)
		} else if why != overRateOfPeer {
			t.Error(why)
		}
	}
	// (a second's worth comes at once, and five with each second that a busy machine takes)
	if most := 6 + int(5*(now()-begin).Seconds()); served < 5 || served > most || len(p.known) != 1 {
		t.Error(served, most, p.known)
	}
	p.known["peer"].connections.full, p.swept = now(), now()-2*burst
	if it, why := p.enter("other"); why != "" || len(p.known) != 1 {
		t.Error(it, why, p.known)
	}
}

func TestAddresses(t *testing.T) {
	for text, want := range map[string]address{
		"127.0.0.1:80":  {"tcp", "127.0.0.1:80"},
		":80":           {"tcp", ":80"},
		"[::1]:80":      {"tcp", "[::1]:80"},
		"unix:/run/it":  {"unix", "/run/it"},
		"systemd":       {"systemd", ""},
		"systemd:guard": {"systemd", "guard"},
	} {
		if got, err := addressOf(text); got != want || err != nil {
			t.Errorf("%s: %v, %v", text, got, err)
		}
	}
	for _, text := range []string{"", "80", "unix:", "host", "[::1]"} {
		if got, err := addressOf(text); err == nil {
			t.Errorf("%q: %v", text, got)
		}
	}
}

func TestUnixSockets(t *testing.T) {
	nothingLeft(t)
	at := address{"unix", filepath.Join(t.TempDir(), "socket")}
	first, err := at.open(0)
	if err != nil {
		t.Fatal(err)
	}
	if _, err := at.open(0); err == nil || !strings.Contains(err.Error(), "in use") {
		t.Error(err)
	}
	first.(*socketFile).UnixListener.Close()
	second, err := at.open(0)
	if err != nil {
		t.Fatal("a socket that nobody serves: ", err)
	}
	second.Close()
	if err := os.WriteFile(at.place, nil, 0o600); err != nil {
		t.Fatal(err)
	}
	if _, err := at.open(0); err == nil {
		t.Error("a file is replaced")
	}
	if _, err := (address{"systemd", ""}).open(0); err == nil {
		t.Error("no socket of systemd")
	}
}

func TestCommandLines(t *testing.T) {
	both := []string{"--listen", ":1", "--connect", ":2"}
	o, err := parse(both)
	if err != nil || o.vetted != [2]bool{true, true} || o.limits.Depth != 64 || o.memory != 1<<30 || o.memoryPerPeer != 1<<28 {
		t.Error(o, err)
	}
	for _, words := range [][]string{
		nil, {"--listen", ":1"}, {"--connect", ":1"}, append(both, "more"), append(both, "--no"), append(both, "--connect", "systemd"),
		append(both, "--connect", "nowhere"), append(both, "--metrics", "nowhere"), append(both, "--size", "x"),
		append(both, "--size", "0"), append(both, "--size", "268435457"), append(both, "--words", "268435457"),
		append(both, "--depth", "257"), append(both, "--depth", "4294967297"), append(both, "--direction", "x"),
		append(both, "--direction", "none", "--listen-packed"), append(both, "--listen-cert", "x"),
		append(both, "--listen-client-ca", "x"), append(both, "--connect-ca", "x"), append(both, "--connect-proxy", "3"),
		append(both, "--connect-tls", "--connect-key", "x"), append(both, "--log", "x"), append(both, "--memory", "1"),
		append(both, "--idle-timeout", "3"), append(both, "--idle-timeout", "-3s"), append(both, "--connect-timeout", "0"),
		append(both, "--max-per-peer", "-1"), append(both, "--connect-tls"), append(both, "--connect", "unix:/a", "--connect-tls"),
	} {
		if o, err := parse(words); err == nil {
			t.Error(words, o)
		}
	}
}

func TestWrongCommandLines(t *testing.T) {
	both := []string{"--listen", ":1", "--connect", ":2"}
	for _, words := range [][]string{
		append(both, "--listen", ":3"), append(both, "--dry-run", "--dry-run"), append(both, "--connect", "127.0.0.1:99999"),
		append(both, "--connect", "127.0.0.1:"), append(both, "--connect", "127.0.0.1:0"), append(both, "--listen-mode", "0660"),
		append(both, "--listen-mode", "9"), append(both, "--tls-min", "1.1"), append(both, "--listen-client-name", "a"),
		append(both, "--listen-proxy-from", "10.0.0.0/8"), append(both, "--listen-proxy", "--listen-proxy-from", "a"),
		{"--listen", "unix:/a", "--connect", ":1", "--listen-proxy", "--listen-proxy-from", "10.0.0.1"},
		append(both, "--message-rate", "-1"), append(both, "--log-rate", "-1"), append(both, "--refused-bytes", "1"),
		append(both, "--memory", "201326591"), append(both, "--memory-per-peer", "201326591"), append(both, "--memory-per-peer", "1073741825"),
		append(both, "--size", "131072", "--memory", "3145727"),
	} {
		if o, err := parse(words); err == nil {
			t.Error(words, o)
		}
	}
	for words, want := range map[string]string{
		"--no": "option not defined: --no", "--listen": "an option needs an argument: --listen",
		"--listen :1 --listen :2":          `invalid value ":2" for --listen: it is given twice`,
		"--size 5 --message-words 6":       `invalid value "6" for --message-words: it is given twice`,
		"--listen :1 --connect unix:a --x": "option not defined: --x",
	} {
		if _, err := parse(strings.Fields(words)); err == nil || err.Error() != want {
			t.Errorf("%s: %v", words, err)
		}
	}
	o, err := parse([]string{"--listen", "unix:/a", "--connect", ":2", "--connect", "unix:/b", "--size", "131072", "--memory", "12582912"})
	if err != nil || len(o.connect) != 2 || o.memoryPerPeer != 3145728 {
		t.Error(o, err)
	}
	for _, word := range []string{"--help", "-h", "-help"} {
		if o, err := parse([]string{word}); err != nil || !o.isHelp {
			t.Error(word, err)
		}
	}
}
