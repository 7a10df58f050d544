package main

import (
	"crypto/ecdsa"
	"crypto/elliptic"
	"crypto/rand"
	"crypto/rsa"
	"crypto/tls"
	"crypto/x509"
	"crypto/x509/pkix"
	"encoding/asn1"
	"flag"
	"math/big"
	"strings"
	"syscall"
	"testing"
	"time"
)

// oddOf returns a number of so many bits, as a modulus that nobody has factors of.
func oddOf(bits int) *big.Int {
	n, err := rand.Int(rand.Reader, new(big.Int).Lsh(big.NewInt(1), uint(bits-1)))
	if err != nil {
		panic(err)
	}
	n.SetBit(n, bits-1, 1)
	return n.SetBit(n, 0, 1)
}

// unsigned returns a chain that nobody has signed: a certificate whose signature has to be verified by an RSA key of so many
// bits, which is in the certificate after it.
func unsigned(t testing.TB, bits int) tls.Certificate {
	t.Helper()
	key, err := ecdsa.GenerateKey(elliptic.P256(), rand.Reader)
	if err != nil {
		t.Fatal(err)
	}
	form := func(name string, isCA bool) *x509.Certificate {
		return &x509.Certificate{SerialNumber: big.NewInt(1), Subject: pkix.Name{CommonName: name}, NotBefore: time.Now().Add(-time.Hour),
			NotAfter: time.Now().Add(time.Hour), IsCA: isCA, BasicConstraintsValid: true, DNSNames: []string{"localhost"}}
	}
	made := func(it, parent *x509.Certificate, public any) []byte {
		der, err := x509.CreateCertificate(rand.Reader, it, parent, public, key)
		if err != nil {
			t.Fatal(err)
		}
		return der
	}
	above := made(form("above", true), form("above", true), &rsa.PublicKey{N: oddOf(bits), E: 1<<31 - 1})
	var parts struct {
		TBS       asn1.RawValue
		Algorithm pkix.AlgorithmIdentifier
		Signature asn1.BitString
	}
	if _, err := asn1.Unmarshal(made(form("leaf", false), form("above", true), &key.PublicKey), &parts); err != nil {
		t.Fatal(err)
	}
	// (both places of the algorithm: sha256WithRSAEncryption, and a signature of the size of the modulus)
	rsaOID := asn1.ObjectIdentifier{1, 2, 840, 113549, 1, 1, 11}
	parts.TBS = withAlgorithm(t, parts.TBS, rsaOID)
	parts.Algorithm = pkix.AlgorithmIdentifier{Algorithm: rsaOID, Parameters: asn1.NullRawValue}
	parts.Signature = asn1.BitString{Bytes: make([]byte, (bits+7)/8), BitLength: (bits + 7) / 8 * 8}
	if _, err := rand.Read(parts.Signature.Bytes[1:]); err != nil {
		t.Fatal(err)
	}
	leaf, err := asn1.Marshal(parts)
	if err != nil {
		t.Fatal(err)
	}
	return tls.Certificate{Certificate: [][]byte{leaf, above}, PrivateKey: key}
}

// withAlgorithm returns the signed part of a certificate with another algorithm of its signature.
func withAlgorithm(t testing.TB, part asn1.RawValue, oid asn1.ObjectIdentifier) asn1.RawValue {
	t.Helper()
	algorithm, err := asn1.Marshal(pkix.AlgorithmIdentifier{Algorithm: oid, Parameters: asn1.NullRawValue})
	if err != nil {
		t.Fatal(err)
	}
	var all []byte
	for i, rest := 0, part.Bytes; len(rest) > 0; i++ {
		var field asn1.RawValue
		if rest, err = asn1.Unmarshal(rest, &field); err != nil {
			t.Fatal(err)
		}
		// (after the version and the serial number)
		if i == 2 {
			field.FullBytes = algorithm
		}
		all = append(all, field.FullBytes...)
	}
	return asn1.RawValue{Class: asn1.ClassUniversal, Tag: asn1.TagSequence, IsCompound: true, Bytes: all}
}

// useOf returns the processor time that it takes to verify one signature by an RSA key of so many bits.
func useOf(t *testing.T, bits int) time.Duration {
	t.Helper()
	key, signature := oddOf(bits), oddOf(bits-1)
	before := processorTime(t)
	new(big.Int).Exp(signature, big.NewInt(1<<31-1), key)
	return processorTime(t) - before
}

// processorTime returns the time that this process has used.
func processorTime(t *testing.T) time.Duration {
	t.Helper()
	var used syscall.Rusage
	if err := syscall.Getrusage(syscall.RUSAGE_SELF, &used); err != nil {
		t.Fatal(err)
	}
	return time.Duration(used.Utime.Nano() + used.Stime.Nano())
}

// hugeBits are those of a key whose chain is within the bound of a handshake.
const hugeBits = 100000

// strangers are how many clients show a chain with a huge key.
var strangers = flag.Int("strangers", 20, "how many clients show a chain with a huge key")

// shakesWith connects with a chain, and reports whether the guard serves it.
func (r *rig) shakesWith(chain *tls.Certificate, roots *x509.CertPool) bool {
	// (by itself Go would show it only to its authorities)
	shown := func(*tls.CertificateRequestInfo) (*tls.Certificate, error) { return chain, nil }
	client := tls.Client(r.dial(), &tls.Config{RootCAs: roots, ServerName: "127.0.0.1", GetClientCertificate: shown})
	defer client.Close()
	if client.Handshake() != nil {
		return false
	}
	n, err := client.Read(make([]byte, 1))
	return n > 0 || err == nil
}

// A chain with a huge key is refused by its size. It takes Go before 1.20.7 two thirds of a second to verify 240000 bits, and a fifth
// of a second to verify these. A good client is served meanwhile: strangers come until it is.
func TestHugeKeysOfClients(t *testing.T) {
	ours := newAuthority(t)
	cert, key := ours.sign("guard")
	// (a fast machine refuses more strangers in a second than the log has lines for)
	r := newRig(t, "--listen-cert", cert, "--listen-key", key, "--listen-client-ca", ours.file, "--log-rate", "0")
	pair, err := tls.LoadX509KeyPair(ours.sign("client"))
	if err != nil {
		t.Fatal(err)
	}
	use := useOf(t, hugeBits)
	chain, before, isServed, came := unsigned(t, hugeBits), processorTime(t), make(chan bool), make(chan int)
	go func() {
		n := 0
		for isOver := false; n < *strangers || !isOver; n++ {
			if r.shakesWith(&chain, ours.pool()) {
				t.Error("a stranger is served")
			}
			select {
			case <-isServed:
				isOver = true
			default:
			}
		}
		came <- n
	}()
	good := tls.Client(r.dial(), &tls.Config{RootCAs: ours.pool(), ServerName: "127.0.0.1", Certificates: []tls.Certificate{pair}})
	greeted := make(chan error, 1)
	go func() { greeted <- good.Handshake() }()
	server := r.accept()
	if err := <-greeted; err != nil {
		t.Error(err)
	}
	sends(good, empty)
	gets(t, "a good client", server, empty)
	close(isServed)
	n := <-came
	used := processorTime(t) - before
	t.Log(used, "for", n, "connections, both sides;", use, "to verify one of them")
	if used > time.Duration(n)*use/4 {
		t.Error("the key is used")
	}
	r.logs("greeting: the peer shows an RSA key of 100000 bits")
	longer := unsigned(t, 240000)
	if r.shakesWith(&longer, ours.pool()) {
		t.Error("a stranger is served")
	}
	r.logs("greeting: " + errLongGreeting.Error())
}

// The same holds of a server.
func TestHugeKeysOfServers(t *testing.T) {
	ours := newAuthority(t)
	r := newRig(t, "--connect-tls", "--connect-ca", ours.file)
	chain := unsigned(t, hugeBits)
	client := r.dial()
	server := tls.Server(r.accept(), &tls.Config{Certificates: []tls.Certificate{chain}})
	if n, err := server.Read(make([]byte, 1)); err == nil || n > 0 {
		t.Error("the server gets something")
	}
	ends(t, "the client", client, nil)
	r.logs("connect: the peer shows an RSA key of 100000 bits")
}

// Whatever bounds the handshake, no huge key is used.
func TestNoHugeKeyIsUsed(t *testing.T) {
	var state tls.ConnectionState
	for _, der := range unsigned(t, 240000).Certificate {
		it, err := x509.ParseCertificate(der)
		if err != nil {
			t.Fatal(err)
		}
		state.PeerCertificates = append(state.PeerCertificates, it)
	}
	before := processorTime(t)
	for i := 0; i < 5; i++ {
		if err := (verifier{roots: x509.NewCertPool()}).verify(state); err == nil {
			t.Error("it is verified")
		}
	}
	if used, use := processorTime(t)-before, useOf(t, 240000); used > use {
		t.Error(used, "for five chains, and", use, "to use one key")
	}
}

func TestCostOfChains(t *testing.T) {
	of := func(bits, exponent int) *x509.Certificate {
		return &x509.Certificate{PublicKey: &rsa.PublicKey{N: oddOf(bits), E: exponent}}
	}
	small := &x509.Certificate{PublicKey: &ecdsa.PublicKey{}}
	for _, row := range []struct {
		chain []*x509.Certificate
		wrong string
	}{
		{[]*x509.Certificate{small, of(2048, 3), of(8192, 65537)}, ""},
		{[]*x509.Certificate{small, of(8193, 3)}, "8193 bits"},
		{[]*x509.Certificate{of(2048, 1<<17+1)}, "exponent 131073"},
		{[]*x509.Certificate{small, small, small, small, small, small, small, small}, ""},
		{[]*x509.Certificate{small, small, small, small, small, small, small, small, small}, "9 certificates"},
	} {
		err := checkCost(row.chain)
		if (err == nil) != (row.wrong == "") || err != nil && !strings.Contains(err.Error(), row.wrong) {
			t.Error(err, row.wrong)
		}
	}
}
