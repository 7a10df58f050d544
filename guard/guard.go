package main

import (
	"context"
	"crypto/tls"
	"errors"
	"fmt"
	"net"
	"sync"
	"sync/atomic"
	"time"

	"github.com/pires/go-proxyproto"
)

// guard serves clients until it is drained.
type guard struct {
	options *options
	secrets secrets
	memory  budget
	metrics *metrics
	log     *logger
	peers   peers
	servers servers
	folder  *folder // of refused messages, or nil

	running    context.Context // until connections are cut
	cut        context.CancelFunc
	open       atomic.Int64 // connections that have a place
	isDraining atomic.Bool
	lock       sync.Mutex
	sessions   map[*session]bool
	all        sync.WaitGroup
}

func newGuard(o *options, log *logger) (*guard, error) {
	g := &guard{options: o, log: log, memory: budget{most: o.memory}, secrets: secrets{files: *o, log: log}, sessions: map[*session]bool{}}
	g.running, g.cut = context.WithCancel(context.Background())
	g.peers = peers{options: o, memory: &g.memory}
	if err := g.secrets.load(); err != nil {
		return nil, err
	}
	if o.refusedFolder != "" {
		var err error
		if g.folder, err = openFolder(o, &g.memory, log); err != nil {
			return nil, fmt.Errorf("--refused-folder: %w", err)
		}
	}
	g.metrics = newMetrics(g)
	g.servers = servers{guard: g}
	for _, at := range o.connect {
		g.servers.all = append(g.servers.all, &backend{address: at, failures: g.metrics.unreached.WithLabelValues(at.text())})
	}
	return g, nil
}

// serve serves the clients of a listener until it is closed. If no connection can be accepted, as when no descriptor is
// left, it tries again a little later.
func (g *guard) serve(listener net.Listener) {
	const least, most = 5 * time.Millisecond, time.Second
	pause := least
	for {
		conn, err := listener.Accept()
		switch {
		case errors.Is(err, net.ErrClosed):
			return
		case err != nil:
			if pause == least {
				g.log.note("accept", "", err)
			}
			time.Sleep(pause)
			if pause *= 2; pause > most {
				pause = most
			}
			continue
		}
		pause = least
		g.admit(conn.(half))
	}
}

// admit serves a connection, unless there are too many.
func (g *guard) admit(conn half) {
	if g.open.Add(1) > int64(g.options.maxConnections) {
		g.open.Add(-1)
		source := conn.RemoteAddr()
		conn.Close()
		g.reject(manyConnections, source, nil)
		return
	}
	g.all.Add(1)
	go func() {
		defer g.all.Done()
		defer g.open.Add(-1)
		c := &caller{conn: conn, source: conn.RemoteAddr(), target: conn.LocalAddr(), stage: g.metrics.stages}
		why, err := g.attend(c)
		conn.Close()
		c.enter(gone)
		if why != "" {
			g.reject(why, c.source, err)
		}
	}()
}

// reject notes why a client is not served.
func (g *guard) reject(why cause, source net.Addr, err error) {
	g.metrics.rejected.WithLabelValues(string(why)).Inc()
	g.log.reject(string(why), name(source), err)
}

// attend greets a client, connects to the server, and passes on what both send. If it doesn't, it returns why.
func (g *guard) attend(c *caller) (why cause, err error) {
	c.enter(greeting)
	why, err = g.greet(c)
	if c.peer != nil {
		defer g.peers.leave(c.peer)
	}
	if why != "" {
		return why, err
	}
	c.enter(connecting)
	conn, at, err := g.reach(c)
	if err != nil {
		return noServer, err
	}
	c.enter(serving)
	g.pass(newSession(g, c, conn, at))
	return "", nil
}

// greet reads what comes before the messages of a client, and counts it as a connection of its peer. If the client is not to be
// served, it returns why.
func (g *guard) greet(c *caller) (why cause, err error) {
	limit, cancel := context.WithTimeout(g.running, g.options.connectTimeout)
	defer cancel()
	isAnnounced, err := g.introduced(limit, c)
	if err != nil {
		return badGreeting, err
	}
	if c.peer, why = g.peers.enter(keyOf(c.source, isAnnounced)); why != "" {
		return why, nil
	}
	if err := g.secure(limit, c); err != nil {
		return badGreeting, err
	}
	return "", nil
}

// reach connects to a server for a client.
func (g *guard) reach(c *caller) (half, *backend, error) {
	limit, cancel := context.WithTimeout(g.running, g.options.connectTimeout)
	defer cancel()
	return g.servers.dial(limit, func(to net.Conn) error { return g.introduce(to, c.source, c.target) })
}

var errNotTrusted = errors.New("the proxy is not of --listen-proxy-from")

// introduced reads the addresses of a client: those of the PROXY protocol, if it is to come by a proxy. It reports whether the
// proxy has announced them.
func (g *guard) introduced(ctx context.Context, c *caller) (isAnnounced bool, err error) {
	o := g.options
	if !o.listenProxy {
		return false, nil
	}
	if len(o.proxies) > 0 && !contains(o.proxies, c.source) {
		return false, errNotTrusted
	}
	var header *proxyproto.Header
	err = within(ctx, c.conn, func() (err error) {
		c.conn, header, err = introduced(c.conn)
		return err
	})
	if err != nil {
		return false, err
	}
	if header.Command == proxyproto.PROXY && header.SourceAddr != nil {
		c.source, c.target = header.SourceAddr, header.DestinationAddr
		return true, nil
	}
	return false, nil
}

// secure makes a TLS connection of a client's, if there is a configuration.
func (g *guard) secure(ctx context.Context, c *caller) error {
	config := g.secrets.current[client].Load()
	if config == nil {
		return nil
	}
	secret, err := g.shaken(ctx, client, c.conn, func(to net.Conn) *tls.Conn { return tls.Server(to, config) })
	if err != nil {
		return err
	}
	c.conn, c.certificate = secret, short(nameOf(secret.ConnectionState()))
	return nil
}

// shaken makes a TLS connection and counts its handshake.
func (g *guard) shaken(ctx context.Context, at side, conn half, over func(net.Conn) *tls.Conn) (*tls.Conn, error) {
	begin := now()
	secret, err := secured(ctx, conn, over)
	g.metrics.shaken(at, now()-begin, err)
	return secret, err
}

// introduce sends the header of the PROXY protocol to the server, if it is to have one. Without addresses it is about the guard
// itself.
func (g *guard) introduce(to net.Conn, source, target net.Addr) error {
	if g.options.sendProxy == 0 {
		return nil
	}
	_, err := headerOf(g.options.sendProxy, source, target).WriteTo(to)
	return err
}

// name returns how an address is logged. That of a Unix socket is empty.
func name(a net.Addr) string {
	if text := a.String(); text != "" && text != "@" {
		return text
	}
	return a.Network()
}

// pass runs a session and notes how it ended.
func (g *guard) pass(s *session) {
	g.metrics.accepted.Inc()
	g.keep(s, true)
	defer g.keep(s, false)
	e := s.run()
	s.shut()
	g.metrics.ended.WithLabelValues(string(e.cause)).Inc()
	switch {
	case e.cause.isAboutMessage(), e.cause == stopped:
		s.report(e)
	}
	if g.options.logConnections {
		g.log.connection(s.record(e))
	}
	s.linger(e)
}

// keep notes that a session runs, or no longer does.
func (g *guard) keep(s *session, runs bool) {
	g.lock.Lock()
	defer g.lock.Unlock()
	if runs {
		g.sessions[s] = true
		return
	}
	delete(g.sessions, s)
}

// drain waits until all connections have ended. It ends those that are left after a while, if that is not 0, or once `now` is
// closed.
func (g *guard) drain(wait time.Duration, now <-chan struct{}) {
	g.isDraining.Store(true)
	ended := make(chan struct{})
	go func() {
		g.all.Wait()
		close(ended)
	}()
	var late <-chan time.Time
	if wait > 0 {
		timer := time.NewTimer(wait)
		defer timer.Stop()
		late = timer.C
	}
	select {
	case <-ended:
		g.cut()
		return
	case <-late:
	case <-now:
	}
	g.cut()
	g.log.note("cut", "", fmt.Errorf("%d connections", g.open.Load()))
	for {
		g.stopAll()
		select {
		case <-ended:
			return
		case <-time.After(linger / 10):
		}
	}
}

// stopAll ends all sessions.
func (g *guard) stopAll() {
	g.lock.Lock()
	defer g.lock.Unlock()
	for s := range g.sessions {
		s.stop()
	}
}
