package main

import (
	"crypto/rsa"
	"crypto/tls"
	"crypto/x509"
	"errors"
	"fmt"
	"strings"
)

const (
	// maxKeyBits, maxExponent and maxChain bound what it costs to verify the certificates of a peer. Go before 1.20.7 verifies
	// by keys of any size, before it knows that an authority has signed them.
	maxKeyBits  = 8192
	maxExponent = 1 << 17
	maxChain    = 8
)

// verifier verifies the certificates of a peer.
type verifier struct {
	roots *x509.CertPool // the authorities, or nil for those of the system
	usage x509.ExtKeyUsage
	host  string   // the name that a server has to have
	names []string // of which a client has to have one, or none if any is right
}

var (
	errNoCertificate = errors.New("there is no certificate")
	errOtherName     = errors.New("the certificate has none of the names of --listen-client-name")
)

// verify verifies the certificates of a connection, once it is known that this takes little time. It is for
// tls.Config.VerifyConnection, which is called before any signature is verified if Go doesn't verify certificates itself.
func (v verifier) verify(state tls.ConnectionState) error {
	chain := state.PeerCertificates
	if len(chain) == 0 {
		return errNoCertificate
	}
	if err := checkCost(chain); err != nil {
		return err
	}
	o := x509.VerifyOptions{Roots: v.roots, Intermediates: x509.NewCertPool(), DNSName: v.host, KeyUsages: []x509.ExtKeyUsage{v.usage}}
	for _, it := range chain[1:] {
		o.Intermediates.AddCert(it)
	}
	if _, err := chain[0].Verify(o); err != nil {
		return err
	}
	if len(v.names) > 0 && !hasAny(chain[0], v.names) {
		return errOtherName
	}
	return nil
}

// namesOf returns the alternative names of a certificate: hosts, addresses, and URIs as those of SPIFFE.
func namesOf(it *x509.Certificate) []string {
	names := append([]string(nil), it.DNSNames...)
	for _, uri := range it.URIs {
		names = append(names, uri.String())
	}
	for _, ip := range it.IPAddresses {
		names = append(names, ip.String())
	}
	return append(names, it.EmailAddresses...)
}

// hasAny reports whether a certificate has one of these names.
func hasAny(it *x509.Certificate, names []string) bool {
	for _, its := range namesOf(it) {
		for _, name := range names {
			if strings.EqualFold(its, name) {
				return true
			}
		}
	}
	return false
}

// nameOf returns how the certificate of a client is logged: its first alternative name, or else its subject.
func nameOf(state tls.ConnectionState) string {
	if len(state.PeerCertificates) == 0 {
		return ""
	}
	it := state.PeerCertificates[0]
	if names := namesOf(it); len(names) > 0 {
		return names[0]
	}
	return it.Subject.String()
}

// checkCost returns an error if it may take long to verify a chain.
func checkCost(chain []*x509.Certificate) error {
	if len(chain) > maxChain {
		return fmt.Errorf("the peer shows %d certificates, at most %d are verified", len(chain), maxChain)
	}
	for _, it := range chain {
		key, ok := it.PublicKey.(*rsa.PublicKey)
		if !ok {
			continue
		}
		if bits := key.N.BitLen(); bits > maxKeyBits || key.E > maxExponent {
			return fmt.Errorf("the peer shows an RSA key of %d bits with the exponent %d, at most %d and %d are verified",
				bits, key.E, maxKeyBits, maxExponent)
		}
	}
	return nil
}

// over returns a configuration by which this verifier verifies the peers, and Go doesn't.
func (v verifier) over(config *tls.Config) *tls.Config {
	config = config.Clone()
	// (towards a server this leaves out only what VerifyConnection does)
	config.InsecureSkipVerify = true
	config.VerifyConnection = v.verify
	return config
}
