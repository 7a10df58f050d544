// Capvet-guard is a proxy in front of a service that reads Cap'n Proto messages. It passes on only the messages that are
// accepted, in both directions. A message that isn't ends its connection, and no other one.
//
// The bytes are vetted by the library capvet, over the package in bindings/go.
package main

import (
	"context"
	"errors"
	"fmt"
	"io"
	"io/fs"
	"net"
	"net/http"
	"os"
	"os/signal"
	"runtime/debug"
	"syscall"
	"time"

	"capvet.invalid/capvet"
	"github.com/coreos/go-systemd/daemon"
)

// The exit statuses, which are those of the program capvet.
const (
	statusDone      = 0
	statusUsage     = 2
	statusError     = 3
	statusProcessor = 127
)

// version is what --version prints. -dev says that it isn't released.
const version = "2.0.0-dev"

func main() {
	// (a log whose reader has ended is no reason to end)
	signal.Ignore(syscall.SIGPIPE)
	signals := make(chan os.Signal, 8)
	signal.Notify(signals, syscall.SIGTERM, syscall.SIGINT, syscall.SIGHUP)
	os.Exit(run(os.Args[1:], os.Stdout, os.Stderr, signals))
}

// run runs the guard until a signal ends it, and returns the status.
func run(words []string, out, log io.Writer, signals <-chan os.Signal) int {
	o, err := parse(words)
	switch {
	case err != nil:
		fmt.Fprintf(log, "capvet-guard: %v\nTry 'capvet-guard --help'.\n", err)
		return statusUsage
	case o.isHelp:
		io.WriteString(out, usage)
		return statusDone
	case o.isVersion:
		fmt.Fprintln(out, "capvet-guard", version)
		return statusDone
	}
	if !capvet.CPUSupported() {
		fmt.Fprintln(log, "capvet-guard: this machine lacks a feature of x86-64-v2")
		return statusProcessor
	}
	lines := newLogger(log, o.log == "json", o.logRate)
	defer lines.close()
	if err := guarded(o, lines, signals); err != nil {
		lines.note("fault", "", err)
		return statusError
	}
	return statusDone
}

// guarded serves until a signal ends it, and then drains.
func guarded(o *options, log *logger, signals <-chan os.Signal) error {
	if err := bound(o, log); err != nil {
		return err
	}
	g, err := newGuard(o, log)
	if err != nil {
		return err
	}
	defer g.folder.close()
	listener, err := g.listen()
	if err != nil {
		return err
	}
	defer listener.Close()
	closeMetrics, err := g.serveMetrics()
	if err != nil {
		return err
	}
	defer closeMetrics()
	go g.followMemory()
	served := make(chan struct{})
	go func() {
		g.serve(listener)
		close(served)
	}()
	log.note("listening", listener.Addr().String(), nil)
	daemon.SdNotify(false, daemon.SdNotifyReady)
	g.awaitEnd(signals)
	daemon.SdNotify(false, daemon.SdNotifyStopping)
	log.note("draining", "", nil)
	listener.Close()
	<-served
	g.drainUntil(signals)
	log.note("ended", "", nil)
	return nil
}

// drainUntil drains until all connections have ended. A signal cuts those that are left.
func (g *guard) drainUntil(signals <-chan os.Signal) {
	again := make(chan struct{})
	go func() {
		g.awaitEnd(signals)
		close(again)
	}()
	g.drain(g.options.drainTimeout, again)
}

// listen opens the address for clients, which may not be one of the server.
func (g *guard) listen() (net.Listener, error) {
	o := g.options
	listener, err := o.listen.open(fs.FileMode(o.listenMode))
	if err != nil {
		return nil, fmt.Errorf("--listen: %w", err)
	}
	for _, to := range o.connect {
		if to.leadsTo(listener) {
			listener.Close()
			return nil, fmt.Errorf("--connect %s leads back to --listen", to.text())
		}
	}
	return listener, nil
}

// awaitEnd waits for a signal that ends the guard. At SIGHUP it reads the certificates again.
func (g *guard) awaitEnd(signals <-chan os.Signal) {
	for s := range signals {
		if s != syscall.SIGHUP {
			return
		}
		if err := g.secrets.load(); err != nil {
			g.log.note("the old certificates stay", "", err)
			continue
		}
		g.log.note("certificates are read", "", nil)
	}
}

// bound sets the most connections, and the memory that the guard may have before there are some. There are never more connections than
// the descriptors allow, so that some are left for everything else.
func bound(o *options, log *logger) error {
	var files syscall.Rlimit
	if err := syscall.Getrlimit(syscall.RLIMIT_NOFILE, &files); err != nil {
		return err
	}
	// (each connection has two)
	most := 1 << 20
	if files.Cur >= 2*spareFiles && files.Cur < 2<<20 {
		most = int(files.Cur-spareFiles) / 2
	}
	if o.maxConnections > most {
		log.note("warning", "", fmt.Errorf("%d descriptors are enough for %d connections, and not for --max-connections %d", files.Cur, most,
			o.maxConnections))
	}
	if o.maxConnections == 0 || o.maxConnections > most {
		o.maxConnections = most
	}
	o.limitHeap(0)
	return nil
}

// limitHeap sets the memory that the collector of garbage keeps to, for so many connections.
func (o *options) limitHeap(connections int64) {
	debug.SetMemoryLimit(o.memory + connections*o.perConnection() + perGuard)
}

// followMemory lets the collector of garbage have more memory while there are more connections, until the guard ends.
func (g *guard) followMemory() {
	const step = 256
	tick := time.NewTicker(time.Second)
	defer tick.Stop()
	for last := int64(0); ; {
		select {
		case <-tick.C:
			if steps := (g.open.Load() + step - 1) / step; steps != last {
				g.options.limitHeap(steps * step)
				last = steps
			}
		case <-g.running.Done():
			return
		}
	}
}

// perConnection returns the bytes that a connection has besides its messages.
func (o *options) perConnection() int64 {
	each := int64(perPlain)
	if o.listenTLS.cert != "" {
		each += perTLS
	}
	if o.connectTLS.isOn {
		each += perTLS
	}
	if o.packed[client] || o.packed[server] {
		each += perPacked
	}
	return each
}

const (
	// spareFiles are descriptors for anything but connections.
	spareFiles = 32
	// perPlain are bytes of a connection besides its messages, perTLS those that it has more for each side with TLS, and perPacked if
	// messages are packed. perGuard are those of the guard itself. (3,000 handshakes as long as they may be took 102 KiB each, and 2,000
	// connections with TLS at both sides 84 KiB. A peer may then begin one more message of TLS, of which Go holds up to 64 KiB)
	perPlain  = 48 << 10
	perTLS    = 160 << 10
	perPacked = 512 << 10
	perGuard  = 64 << 20
)

// serveMetrics serves the metrics, if they have an address.
func (g *guard) serveMetrics() (closeAll func(), err error) {
	if g.options.metrics == (address{}) {
		return func() {}, nil
	}
	listener, err := g.options.metrics.open(0)
	if err != nil {
		return nil, fmt.Errorf("--metrics: %w", err)
	}
	s := g.httpServer()
	served := make(chan struct{})
	go func() {
		defer close(served)
		if err := s.Serve(&few{Listener: listener}); !errors.Is(err, http.ErrServerClosed) {
			g.log.note("metrics", "", err)
		}
	}()
	g.log.note("metrics", listener.Addr().String(), nil)
	return func() {
		limit, cancel := context.WithTimeout(context.Background(), lastWords)
		defer cancel()
		if s.Shutdown(limit) != nil {
			s.Close()
		}
		// (Shutdown doesn't close a listener that Serve hasn't seen yet. Serve then closes it)
		<-served
	}, nil
}
