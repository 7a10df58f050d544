package main

import (
	"crypto/tls"
	"crypto/x509"
	"encoding/binary"
	"hash/crc32"
	"net"
	"net/url"
	"os"
	"strings"
	"testing"
	"time"
)

// shakes makes a TLS connection to the guard, and reports whether the guard serves it.
func (r *rig) shakes(config *tls.Config) bool {
	r.t.Helper()
	client := tls.Client(r.dial(), config)
	defer client.Close()
	if client.Handshake() != nil {
		return false
	}
	// (in TLS 1.3 the client is done before the guard has seen its certificate. Then it is served, or its connection ends)
	listener := r.backend.(*net.TCPListener)
	listener.SetDeadline(time.Now().Add(testPatience))
	ended := make(chan bool)
	go func() {
		client.Read(make([]byte, 1))
		listener.SetDeadline(time.Now())
		close(ended)
	}()
	conn, err := listener.Accept()
	if err == nil {
		conn.Close()
	}
	<-ended
	return err == nil
}

// Old versions and weak suites are refused.
func TestVersionsOfTLS(t *testing.T) {
	ours := newAuthority(t)
	cert, key := ours.sign("guard")
	plain := newRig(t, "--listen-cert", cert, "--listen-key", key)
	newest := newRig(t, "--listen-cert", cert, "--listen-key", key, "--tls-min", "1.3")
	for _, row := range []struct {
		version    uint16
		suites     []uint16
		by, by1dot bool
	}{
		{tls.VersionTLS11, nil, false, false}, {tls.VersionTLS12, nil, true, false}, {tls.VersionTLS13, nil, true, true},
		{tls.VersionTLS12, []uint16{tls.TLS_ECDHE_ECDSA_WITH_AES_128_CBC_SHA}, false, false},
		{tls.VersionTLS12, []uint16{tls.TLS_ECDHE_ECDSA_WITH_AES_128_GCM_SHA256}, true, false},
	} {
		config := &tls.Config{RootCAs: ours.pool(), ServerName: "localhost", MinVersion: tls.VersionTLS10, MaxVersion: row.version, CipherSuites: row.suites}
		if got := plain.shakes(config); got != row.by {
			t.Errorf("%+v: %v", row, got)
		}
		if got := newest.shakes(config); got != row.by1dot {
			t.Errorf("%+v with --tls-min 1.3: %v", row, got)
		}
	}
	newest.counts("handshakes", newest.guard.metrics.handshakes.WithLabelValues("client", "done"), 1)
	newest.counts("handshakes", newest.guard.metrics.handshakes.WithLabelValues("client", "failed"), 4)
	for _, id := range suites {
		if name := tls.CipherSuiteName(id); !strings.HasPrefix(name, "TLS_ECDHE_") || !strings.Contains(name, "GCM") && !strings.Contains(name, "CHACHA20") {
			t.Error(name)
		}
	}
}

// Only clients with one of the names are served, if there are names.
func TestNamesOfClients(t *testing.T) {
	ours := newAuthority(t)
	cert, key := ours.sign("guard")
	pair, err := tls.LoadX509KeyPair(ours.sign("client"))
	if err != nil {
		t.Fatal(err)
	}
	config := &tls.Config{RootCAs: ours.pool(), ServerName: "localhost", Certificates: []tls.Certificate{pair}}
	words := []string{"--listen-cert", cert, "--listen-key", key, "--listen-client-ca", ours.file, "--log-connections"}
	for names, want := range map[string]bool{"localhost": true, "other,127.0.0.1": true, "LOCALHOST": true, "other": false, "local": false} {
		r := newRig(t, append(words, "--listen-client-name", names)...)
		if got := r.shakes(config); got != want {
			t.Error(names, got)
		}
		if want {
			r.logs(" connection: ", " certificate localhost")
		} else {
			r.logs("greeting: " + errOtherName.Error())
		}
	}
	it := &x509.Certificate{URIs: []*url.URL{{Scheme: "spiffe", Host: "example.org", Path: "/service"}}, EmailAddresses: []string{"a@example.org"}}
	if !hasAny(it, []string{"x", "spiffe://example.org/service"}) || !hasAny(it, []string{"a@example.org"}) || hasAny(it, []string{"example.org"}) {
		t.Error(namesOf(it))
	}
}

// A certificate that has expired, and a key that all users can read, are used with a warning. A wrong pair is named.
func TestWarnings(t *testing.T) {
	ours := newAuthority(t)
	cert, key := ours.sign("guard")
	if err := os.Chmod(key, 0o644); err != nil {
		t.Fatal(err)
	}
	r := newRig(t, "--listen-cert", cert, "--listen-key", key)
	r.logs(" warning: --listen-key "+key, "-rw-r--r--")
	ours.sign("other")
	r.guard.secrets.files.listenTLS.key = ours.folder + "/other.key"
	if err := r.guard.secrets.load(); err == nil || !strings.Contains(err.Error(), "--listen-cert "+cert+", --listen-key "+ours.folder+"/other.key: tls: ") {
		t.Error(err)
	}
	r.guard.secrets.files.listenTLS = serverFiles{cert: ours.expired(), key: ours.folder + "/expired.key"}
	if err := r.guard.secrets.load(); err != nil {
		t.Error(err)
	}
	r.logs(" warning: --listen-cert ", " is valid from ")
	if at := r.guard.secrets.expiry[client].Load(); at == 0 || time.Unix(at, 0).After(time.Now()) {
		t.Error(at)
	}
}

// A handshake of a stranger has a bound, and what comes after it has none.
func TestLongHandshakes(t *testing.T) {
	ours := newAuthority(t)
	cert, key := ours.sign("guard")
	r := newRig(t, "--listen-cert", cert, "--listen-key", key)
	stranger := r.dial()
	// (the first records of a ClientHello of 65535 bytes)
	hello := append([]byte{1, 0, 255, 255}, make([]byte, 65000)...)
	for len(hello) > 0 {
		n := len(hello)
		if n > 16000 {
			n = 16000
		}
		sends(stranger, append([]byte{22, 3, 1, byte(n >> 8), byte(n)}, hello[:n]...))
		hello = hello[n:]
	}
	r.logs("greeting: " + errLongGreeting.Error())
	good := tls.Client(r.dial(), &tls.Config{RootCAs: ours.pool(), ServerName: "localhost"})
	go sends(good, large(100000))
	gets(t, "a large message", r.accept(), large(100000))
}

// checked returns a header of version 2 with an address, a checksum, and a TLV of this length.
func checked(length int, isRight bool) []byte {
	tlvs := append([]byte{3, 0, 4, 0, 0, 0, 0, 0xE0, byte(length >> 8), byte(length)}, make([]byte, length)...)
	head := []byte(fuzzBinary(0x21, 0x11, join([]byte{10, 1, 2, 3, 10, 4, 5, 6, 0, 1, 0, 2}, tlvs)...))
	sum := crc32.Checksum(head, crc32.MakeTable(crc32.Castagnoli))
	if !isRight {
		sum++
	}
	binary.BigEndian.PutUint32(head[16+12+3:], sum)
	return head
}

// A header may come in any pieces, and have long TLVs. Its checksum has to be right, and its proxy one of those that are allowed.
func TestPiecesOfHeaders(t *testing.T) {
	r := newRig(t, "--listen-proxy", "--log-connections")
	for _, head := range [][]byte{[]byte("PROXY TCP4 10.1.2.3 10.4.5.6 1 2\r\n"), checked(10, true), checked(20000, true), checked(60000, true)} {
		client := r.dial()
		client.(*net.TCPConn).SetNoDelay(true)
		sends(client, head[:1])
		time.Sleep(10 * time.Millisecond)
		sends(client, head[1:14])
		time.Sleep(10 * time.Millisecond)
		sends(client, join(head[14:], shared))
		server := r.accept()
		gets(t, "a request after the header", server, shared)
		client.Close()
		server.Close()
		r.logs("10.1.2.3:1 connection: ")
	}
	wrong := r.dial()
	sends(wrong, checked(10, false))
	ends(t, "a wrong checksum", wrong, nil)
	r.logs("greeting: " + errChecksum.Error())
	other := newRig(t, "--listen-proxy", "--listen-proxy-from", "192.0.2.0/24,2001:db8::1")
	client := other.dial()
	ends(t, "a proxy of another network", client, nil)
	other.logs(client.LocalAddr().String() + " greeting: " + errNotTrusted.Error())
	allowed := newRig(t, "--listen-proxy", "--listen-proxy-from", "127.0.0.1")
	client = allowed.dial()
	sends(client, join(checked(1, true), shared))
	gets(t, "a request of an allowed proxy", allowed.accept(), shared)
}

// The lines have the client's address, and not that of its proxy.
func TestAddressesInTheLog(t *testing.T) {
	r := newRig(t, "--listen-proxy")
	r.backend.Close()
	client := r.dial()
	sends(client, []byte("PROXY TCP4 203.0.113.77 10.4.5.6 7 2\r\n"))
	ends(t, "a client without a server", client, nil)
	r.logs(" 203.0.113.77:7 connect: ")
}
