package main

import (
	"crypto/tls"
	"crypto/x509"
	"fmt"
	"io/fs"
	"os"
	"strings"
	"sync/atomic"
	"time"
)

// serverFiles are what is served to clients by TLS. Without a certificate they are served without TLS.
type serverFiles struct{ cert, key, clientCA, clientNames string }

// clientFiles are how the server is connected to by TLS, if isOn.
type clientFiles struct {
	isOn                bool
	ca, name, cert, key string
}

// secrets are the current configurations for TLS of both sides. One that is nil means a connection without TLS.
type secrets struct {
	files   options
	log     *logger
	current [2]atomic.Pointer[tls.Config]
	expiry  [2]atomic.Int64 // when the certificate of a side expires, in seconds, or 0
}

// suites are those of TLS 1.2 that keep past connections secret if a key is lost, and that have no known weakness. (Go has
// others by default, as that of RSA with 3DES)
var suites = []uint16{
	tls.TLS_ECDHE_ECDSA_WITH_AES_128_GCM_SHA256, tls.TLS_ECDHE_RSA_WITH_AES_128_GCM_SHA256,
	tls.TLS_ECDHE_ECDSA_WITH_AES_256_GCM_SHA384, tls.TLS_ECDHE_RSA_WITH_AES_256_GCM_SHA384,
	tls.TLS_ECDHE_ECDSA_WITH_CHACHA20_POLY1305_SHA256, tls.TLS_ECDHE_RSA_WITH_CHACHA20_POLY1305_SHA256,
}

// load reads all files. After an error the configurations are as they were.
func (s *secrets) load() error {
	toClients, err := s.toClients()
	if err != nil {
		return err
	}
	toServer, err := s.toServer()
	if err != nil {
		return err
	}
	s.current[client].Store(toClients)
	s.current[server].Store(toServer)
	return nil
}

// base returns a configuration without certificates.
func (s *secrets) base() *tls.Config {
	config := &tls.Config{MinVersion: tls.VersionTLS12, CipherSuites: suites}
	if s.files.tlsMin == "1.3" {
		config.MinVersion = tls.VersionTLS13
	}
	return config
}

// toClients returns the configuration towards clients.
func (s *secrets) toClients() (config *tls.Config, err error) {
	f := s.files.listenTLS
	if f.cert == "" {
		return nil, nil
	}
	config = s.base()
	if config.Certificates, err = s.pair(client, "--listen-cert", f.cert, "--listen-key", f.key); err != nil || f.clientCA == "" {
		return config, err
	}
	if config.ClientCAs, err = authorities("--listen-client-ca", f.clientCA); err != nil {
		return nil, err
	}
	config.ClientAuth = tls.RequireAnyClientCert
	v := verifier{roots: config.ClientCAs, usage: x509.ExtKeyUsageClientAuth}
	if f.clientNames != "" {
		v.names = strings.Split(f.clientNames, ",")
	}
	return v.over(config), nil
}

// toServer returns the configuration towards the server. It has no verifier yet, since that knows the name of the server.
func (s *secrets) toServer() (config *tls.Config, err error) {
	f := s.files.connectTLS
	if !f.isOn {
		return nil, nil
	}
	config = s.base()
	config.ServerName = f.name
	if f.ca != "" {
		if config.RootCAs, err = authorities("--connect-ca", f.ca); err != nil {
			return nil, err
		}
	}
	if f.cert != "" {
		config.Certificates, err = s.pair(server, "--connect-cert", f.cert, "--connect-key", f.key)
	}
	return config, err
}

// towards returns the configuration for a server, whose certificate is for the configured name or else for its host.
func towards(to address, config *tls.Config) *tls.Config {
	host := config.ServerName
	if host == "" {
		host = to.host()
	}
	config = verifier{roots: config.RootCAs, usage: x509.ExtKeyUsageServerAuth, host: host}.over(config)
	config.ServerName = host
	return config
}

// pair reads a certificate and its key for a side. It warns of what is likely to be a mistake.
func (s *secrets) pair(at side, certOption, cert, keyOption, key string) ([]tls.Certificate, error) {
	it, err := tls.LoadX509KeyPair(cert, key)
	if err != nil {
		return nil, fmt.Errorf("%s %s, %s %s: %w", certOption, cert, keyOption, key, err)
	}
	leaf, err := x509.ParseCertificate(it.Certificate[0])
	if err != nil {
		return nil, fmt.Errorf("%s %s: %w", certOption, cert, err)
	}
	s.expiry[at].Store(leaf.NotAfter.Unix())
	if now := time.Now(); now.After(leaf.NotAfter) || now.Before(leaf.NotBefore) {
		s.warn("%s %s is valid from %v to %v", certOption, cert, leaf.NotBefore.Format(time.RFC3339), leaf.NotAfter.Format(time.RFC3339))
	}
	if info, err := os.Stat(key); err == nil && info.Mode().Perm()&0o007 != 0 {
		s.warn("%s %s can be used by all users: its mode is %v", keyOption, key, info.Mode().Perm())
	}
	return []tls.Certificate{it}, nil
}

// warn writes a line about something that the guard goes on with.
func (s *secrets) warn(text string, words ...any) {
	s.log.note("warning", "", fmt.Errorf(text, words...))
}

// authorities reads the certificates of a file, which an option names.
func authorities(option, file string) (*x509.CertPool, error) {
	text, err := os.ReadFile(file)
	if err != nil {
		return nil, fmt.Errorf("%s: %w", option, err)
	}
	pool := x509.NewCertPool()
	if !pool.AppendCertsFromPEM(text) {
		return nil, fmt.Errorf("%s: %w", option, &fs.PathError{Op: "read", Path: file, Err: errNoCertificate})
	}
	return pool, nil
}
