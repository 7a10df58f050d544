package main

import (
	"bufio"
	"crypto/ecdsa"
	"crypto/elliptic"
	"crypto/rand"
	"crypto/tls"
	"crypto/x509"
	"crypto/x509/pkix"
	"encoding/pem"
	"io"
	"math/big"
	"net"
	"net/http"
	"net/http/httptest"
	"os"
	"path/filepath"
	"runtime"
	"strings"
	"testing"
	"time"

	"github.com/pires/go-proxyproto"
)

// authority signs certificates for a test.
type authority struct {
	t           testing.TB
	folder      string
	certificate *x509.Certificate
	key         *ecdsa.PrivateKey
	file        string
}

func newAuthority(t testing.TB) *authority {
	t.Helper()
	a := &authority{t: t, folder: t.TempDir()}
	a.file, _ = a.sign("authority")
	return a
}

// sign writes a certificate for 127.0.0.1 and its key, and returns both files.
func (a *authority) sign(name string) (cert, key string) {
	a.t.Helper()
	return a.signUntil(name, time.Now().Add(time.Hour))
}

// expired writes a certificate that is no longer valid.
func (a *authority) expired() (cert string) {
	a.t.Helper()
	cert, _ = a.signUntil("expired", time.Now().Add(-time.Minute))
	return cert
}

func (a *authority) signUntil(name string, end time.Time) (cert, key string) {
	a.t.Helper()
	private, err := ecdsa.GenerateKey(elliptic.P256(), rand.Reader)
	if err != nil {
		a.t.Fatal(err)
	}
	serial, _ := rand.Int(rand.Reader, big.NewInt(1<<62))
	form := &x509.Certificate{SerialNumber: serial, Subject: pkix.Name{CommonName: name}, NotBefore: time.Now().Add(-time.Hour),
		NotAfter: end, IPAddresses: []net.IP{net.IPv4(127, 0, 0, 1)}, DNSNames: []string{"localhost"},
		ExtKeyUsage: []x509.ExtKeyUsage{x509.ExtKeyUsageServerAuth, x509.ExtKeyUsageClientAuth}}
	parent, signer := a.certificate, a.key
	if parent == nil {
		form.IsCA, form.BasicConstraintsValid, form.KeyUsage = true, true, x509.KeyUsageCertSign
		parent, signer = form, private
	}
	der, err := x509.CreateCertificate(rand.Reader, form, parent, &private.PublicKey, signer)
	if err != nil {
		a.t.Fatal(err)
	}
	if a.certificate == nil {
		a.certificate, _ = x509.ParseCertificate(der)
		a.key = private
	}
	hidden, err := x509.MarshalECPrivateKey(private)
	if err != nil {
		a.t.Fatal(err)
	}
	return a.write(name+".pem", "CERTIFICATE", der), a.write(name+".key", "EC PRIVATE KEY", hidden)
}

func (a *authority) write(name, kind string, der []byte) string {
	file := filepath.Join(a.folder, name)
	if err := os.WriteFile(file, pem.EncodeToMemory(&pem.Block{Type: kind, Bytes: der}), 0o600); err != nil {
		a.t.Fatal(err)
	}
	return file
}

// pool returns the authority as those that a peer trusts.
func (a *authority) pool() *x509.CertPool {
	pool := x509.NewCertPool()
	pool.AddCert(a.certificate)
	return pool
}

// Both sides use TLS, with certificates of clients. A peer without one, or of another authority, gets nothing.
func TestTLS(t *testing.T) {
	ours, others := newAuthority(t), newAuthority(t)
	cert, key := ours.sign("guard")
	clientCert, clientKey := ours.sign("client")
	pair, err := tls.LoadX509KeyPair(clientCert, clientKey)
	if err != nil {
		t.Fatal(err)
	}
	r := newRig(t, "--listen-cert", cert, "--listen-key", key, "--listen-client-ca", ours.file,
		"--connect-tls", "--connect-ca", ours.file, "--connect-cert", clientCert, "--connect-key", clientKey)
	serverPair, err := tls.LoadX509KeyPair(cert, key)
	if err != nil {
		t.Fatal(err)
	}
	backend := &tls.Config{Certificates: []tls.Certificate{serverPair}, ClientAuth: tls.RequireAndVerifyClientCert, ClientCAs: ours.pool()}
	client := tls.Client(r.dial(), &tls.Config{RootCAs: ours.pool(), ServerName: "127.0.0.1", Certificates: []tls.Certificate{pair}})
	// (the guard connects to the server once the client is greeted)
	greeted := make(chan error, 1)
	go func() { greeted <- client.Handshake() }()
	server := tls.Server(r.accept(), backend)
	sends(client, join(empty, shared, large(50000)))
	gets(t, "requests", server, join(empty, shared, large(50000)))
	if err := <-greeted; err != nil {
		t.Fatal(err)
	}
	go sends(server, join(shared, cycle, empty))
	ends(t, "replies", client, shared)
	ends(t, "the server", server, nil)
	r.logs("replies message 1: refused DepthLimit at 0:0 pointers 65 offset 40")

	for _, config := range []*tls.Config{
		{RootCAs: ours.pool(), ServerName: "127.0.0.1"},
		{RootCAs: others.pool(), ServerName: "127.0.0.1", Certificates: []tls.Certificate{pair}},
	} {
		stranger := tls.Client(r.dial(), config)
		if stranger.Handshake() == nil {
			if n, err := stranger.Read(make([]byte, 1)); err == nil || n > 0 {
				t.Error("a stranger is served")
			}
		}
	}
	r.counts("rejected", r.guard.metrics.rejected.WithLabelValues("greeting"), 2)
}

// A server with another name, or of another authority, gets nothing.
func TestServersOfOthers(t *testing.T) {
	ours, others := newAuthority(t), newAuthority(t)
	cert, key := others.sign("server")
	pair, err := tls.LoadX509KeyPair(cert, key)
	if err != nil {
		t.Fatal(err)
	}
	for _, words := range [][]string{{"--connect-ca", ours.file}, {"--connect-ca", others.file, "--connect-name", "other.example"}} {
		r := newRig(t, append([]string{"--connect-tls"}, words...)...)
		client := r.dial()
		server := tls.Server(r.accept(), &tls.Config{Certificates: []tls.Certificate{pair}})
		sends(client, empty)
		if n, err := server.Read(make([]byte, 1)); err == nil || n > 0 {
			t.Error("a server of others is served")
		}
		ends(t, "the client", client, nil)
		r.counts("rejected", r.guard.metrics.rejected.WithLabelValues("connect"), 1)
	}
}

// Certificates that are read again are for the connections from then on. If they can't be read, the old ones stay.
func TestCertificatesAgain(t *testing.T) {
	ours := newAuthority(t)
	cert, key := ours.sign("guard")
	r := newRig(t, "--listen-cert", cert, "--listen-key", key)
	serial := func() string {
		client := tls.Client(r.dial(), &tls.Config{RootCAs: ours.pool(), ServerName: "localhost"})
		defer client.Close()
		if err := client.Handshake(); err != nil {
			t.Fatal(err)
		}
		r.accept().Close()
		return client.ConnectionState().PeerCertificates[0].SerialNumber.String()
	}
	first := serial()
	if again := serial(); again != first {
		t.Error(first, again)
	}
	ours.sign("guard")
	if err := r.guard.secrets.load(); err != nil {
		t.Fatal(err)
	}
	second := serial()
	if second == first {
		t.Error(second)
	}
	if err := os.WriteFile(key, []byte("no key"), 0o600); err != nil {
		t.Fatal(err)
	}
	if err := r.guard.secrets.load(); err == nil {
		t.Error("no key is read")
	}
	if third := serial(); third != second {
		t.Error(third, second)
	}
}

// A client that never greets is closed after a while.
func TestSilentGreetings(t *testing.T) {
	ours := newAuthority(t)
	cert, key := ours.sign("guard")
	r := newRig(t, "--listen-cert", cert, "--listen-key", key, "--connect-timeout", "200ms")
	ends(t, "a silent client", r.dial(), nil)
	r = newRig(t, "--listen-proxy", "--connect-timeout", "200ms")
	ends(t, "a silent proxy", r.dial(), nil)
}

// The addresses of the PROXY protocol are read, and sent on.
func TestProxyProtocol(t *testing.T) {
	for _, version := range []string{"1", "2"} {
		r := newRig(t, "--listen-proxy", "--connect-proxy", version, "--max-per-peer", "1")
		header := proxyproto.HeaderProxyFromAddrs(version[0]-'0', &net.TCPAddr{IP: net.IPv4(10, 1, 2, 3), Port: 4},
			&net.TCPAddr{IP: net.IPv4(10, 9, 9, 9), Port: 5})
		text, err := header.Format()
		if err != nil {
			t.Fatal(err)
		}
		client := r.dial()
		sends(client, join(text, shared, large(3000)[:9000]))
		server := r.accept()
		reader := bufio.NewReader(server)
		got, err := proxyproto.Read(reader)
		if err != nil || !got.EqualsTo(header) {
			t.Error(got, err)
		}
		gets(t, "a request after the header", reader, shared)
		sends(client, large(3000)[9000:])
		gets(t, "the next request", reader, large(3000))
		second := r.dial()
		sends(second, text)
		ends(t, "a second connection of the peer", second, nil)
		sends(client, cycle)
		ends(t, "a circle", reader, nil)
		r.logs("10.1.2.3:4 requests message 2: refused DepthLimit")
		other := r.dial()
		sends(other, []byte("GET / HTTP/1.1\r\n\r\n"))
		ends(t, "a client without the header", other, nil)
		r.logs("greeting: ")
	}
}

func TestOverUnixSockets(t *testing.T) {
	nothingLeft(t)
	path := filepath.Join(t.TempDir(), "server")
	backend, err := net.Listen("unix", path)
	if err != nil {
		t.Fatal(err)
	}
	r := rigBefore(t, 0, backend, "unix:"+path, "--listen", "unix:"+path+".guard", "--max-per-peer", "1")
	for i := 0; i < 2; i++ {
		client, err := net.Dial("unix", path+".guard")
		if err != nil {
			t.Fatal(err)
		}
		defer client.Close()
		server, err := backend.Accept()
		if err != nil {
			t.Fatal(err)
		}
		defer server.Close()
		sends(client, join(shared, cycle))
		ends(t, "the server", server, shared)
		ends(t, "the client", client, nil)
	}
	r.logs("unix requests message 1: refused")
}

func TestMetricsAndHealth(t *testing.T) {
	r := newRig(t, "--metrics", "127.0.0.1:0")
	client, server := r.pair()
	sends(client, join(shared, cycle))
	ends(t, "the server", server, shared)
	r.counts("connections", r.guard.metrics.stages[serving], 0)
	get := func(path string) (int, string) {
		w := httptest.NewRecorder()
		r.guard.handler().ServeHTTP(w, httptest.NewRequest("GET", path, nil))
		text, _ := io.ReadAll(w.Result().Body)
		return w.Code, string(text)
	}
	status, text := get("/metrics")
	for _, line := range []string{
		`capvet_guard_messages_total{direction="requests"} 1`, `capvet_guard_messages_total{direction="replies"} 0`,
		`capvet_guard_bytes_total{direction="requests"} 40`, `capvet_guard_connections{state="open"} 0`, `capvet_guard_connections_total 1`,
		`capvet_guard_refusals_total{direction="requests",reason="DepthLimit"} 1`, `capvet_guard_buffer_bytes 0`,
		`capvet_guard_connections_ended_total{cause="refused"} 1`, `capvet_guard_vet_seconds_count{direction="requests"} `,
		`go_goroutines `, `process_open_fds `, `process_resident_memory_bytes `,
	} {
		if status != http.StatusOK || !strings.Contains(text, "\n"+line) {
			t.Errorf("%d, no %s in %s", status, line, text)
		}
	}
	if status, text := get("/health"); status != http.StatusOK || text != "ok\n" {
		t.Error(status, text)
	}
	r.guard.isDraining.Store(true)
	if status, _ := get("/health"); status != http.StatusServiceUnavailable {
		t.Error(status)
	}
}

// (with one processor the end comes before the server of the metrics has begun)
func TestMetricsSocketAtAnEarlyEnd(t *testing.T) {
	path := filepath.Join(t.TempDir(), "metrics")
	r := newRig(t, "--metrics", "unix:"+path)
	defer runtime.GOMAXPROCS(runtime.GOMAXPROCS(1))
	closeMetrics, err := r.guard.serveMetrics()
	if err != nil {
		t.Fatal(err)
	}
	closeMetrics()
	if _, err := os.Lstat(path); err == nil {
		t.Error("the socket is left")
	}
}

func TestLogAsJSON(t *testing.T) {
	r := newRig(t, "--log", "json")
	client, server := r.pair()
	sends(server, join(shared, cycle))
	ends(t, "the client", client, shared)
	r.logs(`"event":"refused"`, `"peer":"`+client.LocalAddr().String()+`"`, `"direction":"replies"`, `"message":1`,
		`"reason":"DepthLimit"`, `"segment":0`, `"word":0`, `"pointer":65`, `"path":"`+strings.Repeat("/p0", 64)+`"`, `"offset":40`)
}
