package main

import (
	"context"
	"crypto/tls"
	"errors"
	"net"
	"time"
)

// half is a connection of which one direction can be ended.
type half interface {
	net.Conn
	CloseWrite() error
}

// maxGreeting is how many bytes of a handshake of TLS are read. It bounds what a stranger can make the guard hold and verify.
const maxGreeting = 32 << 10

var errLongGreeting = errors.New("the handshake is too long")

// metered is a connection of which at most so many bytes are read before it is open.
type metered struct {
	half
	left   int
	isOpen bool
}

// Read reads what may still be read.
func (m *metered) Read(b []byte) (int, error) {
	if m.isOpen {
		return m.half.Read(b)
	}
	if m.left == 0 {
		return 0, errLongGreeting
	}
	if len(b) > m.left {
		b = b[:m.left]
	}
	n, err := m.half.Read(b)
	m.left -= n
	return n, err
}

// secured makes a TLS connection by a handshake, within the time of a context.
func secured(ctx context.Context, conn half, over func(net.Conn) *tls.Conn) (*tls.Conn, error) {
	meter := &metered{half: conn, left: maxGreeting}
	secret := over(meter)
	if err := secret.HandshakeContext(ctx); err != nil {
		return nil, err
	}
	meter.isOpen = true
	return secret, nil
}

// within uses a connection that has no deadline. Its reads and writes fail once the context has ended.
func within(ctx context.Context, conn net.Conn, use func() error) error {
	used, watched := make(chan struct{}), make(chan struct{})
	go func() {
		defer close(watched)
		select {
		case <-ctx.Done():
			conn.SetDeadline(time.Unix(1, 0))
		case <-used:
		}
	}()
	err := use()
	close(used)
	<-watched
	return err
}
