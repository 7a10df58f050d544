package main

import (
	"context"
	"crypto/tls"
	"fmt"
	"net"
	"sync"
	"sync/atomic"
	"time"

	"github.com/prometheus/client_golang/prometheus"
)

// retry is for how long a server that couldn't be reached is only tried after the others.
const retry = 5 * time.Second

// backend is an address of the server.
type backend struct {
	address
	failed   atomic.Int64 // when it couldn't be reached, or 0
	failures prometheus.Counter
}

// isDown reports whether it couldn't be reached a moment ago.
func (b *backend) isDown() bool {
	failed := b.failed.Load()
	return failed != 0 && now()-time.Duration(failed) < retry
}

// servers are the addresses of the server, in the order of their options.
type servers struct {
	guard *guard
	all   []*backend
	ready readiness
}

// inOrder returns the addresses, those that are down last.
func (s *servers) inOrder() []*backend {
	var up, down []*backend
	for _, it := range s.all {
		if it.isDown() {
			down = append(down, it)
		} else {
			up = append(up, it)
		}
	}
	return append(up, down...)
}

// dial connects to the first address that can be reached. Each one has an equal part of the time that is left. `greet` writes
// what comes before TLS.
func (s *servers) dial(ctx context.Context, greet func(net.Conn) error) (conn half, at *backend, err error) {
	tried := s.inOrder()
	for i, it := range tried {
		part, cancel := context.WithTimeout(ctx, partOf(ctx, len(tried)-i))
		conn, wrong := s.dialOne(part, it, greet)
		cancel()
		if wrong == nil {
			it.failed.Store(0)
			return conn, it, nil
		}
		if err == nil {
			err = wrong
		} else {
			err = fmt.Errorf("%w; %v", err, wrong)
		}
		if s.guard.running.Err() != nil {
			break
		}
		it.failed.Store(int64(now()))
		it.failures.Inc()
	}
	return nil, nil, err
}

// partOf returns an equal part of the time that a context has left.
func partOf(ctx context.Context, parts int) time.Duration {
	until, ok := ctx.Deadline()
	if !ok {
		return time.Hour
	}
	return time.Until(until) / time.Duration(parts)
}

// dialOne connects to an address.
func (s *servers) dialOne(ctx context.Context, to *backend, greet func(net.Conn) error) (half, error) {
	var dialer net.Dialer
	plain, err := dialer.DialContext(ctx, to.network, to.place)
	if err != nil {
		return nil, err
	}
	conn := plain.(half)
	if err := within(ctx, conn, func() error { return greet(conn) }); err != nil {
		conn.Close()
		return nil, err
	}
	config := s.guard.secrets.current[server].Load()
	if config == nil {
		return conn, nil
	}
	secret, err := s.guard.shaken(ctx, server, conn, func(c net.Conn) *tls.Conn { return tls.Client(c, towards(to.address, config)) })
	if err != nil {
		conn.Close()
		return nil, err
	}
	return secret, nil
}

// readiness is what the last check of the servers has found.
type readiness struct {
	lock sync.Mutex
	at   time.Duration
	err  error
}

// fresh is for how long a check of the servers counts.
const fresh = time.Second

// check connects to the server, unless it did so a moment ago. The error is why it can't be reached.
func (s *servers) check() error {
	r := &s.ready
	r.lock.Lock()
	defer r.lock.Unlock()
	if r.at != 0 && now()-r.at < fresh {
		return r.err
	}
	wait := s.guard.options.connectTimeout
	if wait > maxCheck {
		wait = maxCheck
	}
	ctx, cancel := context.WithTimeout(s.guard.running, wait)
	defer cancel()
	conn, _, err := s.dial(ctx, func(to net.Conn) error { return s.guard.introduce(to, nil, nil) })
	if err == nil {
		conn.Close()
	}
	if err != nil && r.err == nil {
		s.guard.log.note("not ready", "", err)
	}
	r.at, r.err = now(), err
	return err
}

// maxCheck is how long a check of the servers takes at most.
const maxCheck = 5 * time.Second
