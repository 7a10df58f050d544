package main

import (
	"errors"
	"flag"
	"fmt"
	"io"
	"strconv"
	"strings"
	"time"

	"capvet.invalid/capvet"
)

// options are what the command line says.
type options struct {
	listen, metrics address
	listenMode      uint // of a Unix socket, or 0
	connect         addresses

	listenTLS   serverFiles
	connectTLS  clientFiles
	tlsMin      string
	listenProxy bool
	proxies     networks // that may send the PROXY protocol, or none if all may
	sendProxy   int

	limits capvet.Limits
	dryRun bool
	packed [2]bool // by the side: whether messages are packed there
	vetted [2]bool // by the direction: whether its messages are vetted

	maxConnections, maxPerPeer            int
	connectionRate, messageRate, byteRate int64
	messageTimeout, idleTimeout           time.Duration
	connectTimeout, drainTimeout          time.Duration
	memory, memoryPerPeer                 int64

	refusedFolder     string
	refusedBytes      int64
	log               string
	logRate           int64
	logConnections    bool
	isHelp, isVersion bool
}

const usage = `Passes on only the Cap'n Proto messages that are accepted, between clients and a server

Usage: capvet-guard --listen ADDRESS --connect ADDRESS [OPTIONS]

An ADDRESS is HOST:PORT, or unix:PATH. With --listen it may be systemd, or systemd:NAME: the socket that systemd opened.
A DURATION is a number with a unit, as 30s or 5m. 0 means no limit, unless it says otherwise.
N words and BYTES may be a size with a unit, as 64MiB or 40MB. A word has 8 bytes.
A peer is an IPv4 address, or an IPv6 network of 64 bits.

Options:
      --listen ADDRESS           The address for clients
      --listen-mode MODE         The mode of the Unix socket for clients, as 0660 [default: by the umask]
      --connect ADDRESS          The address of the server. If there are several, the first that can be reached
      --direction DIRECTION      Vet both, requests, replies, or none [default: both]
      --dry-run                  Report what would be refused, and pass it on
      --size N                   Refuse messages of more than N words [default: 8388608] [alias: --message-words]
      --words N                  Refuse messages of which a traversal reads more than N words [default: 8388608]
                                 [alias: --charge]
      --depth N                  Refuse messages with objects deeper than N levels [default: 64]
      --exclusive                Refuse messages that use a word twice
      --allow-nonstrict          Accept messages that are not strict
      --allow-amplified          Accept messages that are amplified
      --listen-packed            Messages of clients, and to them, are packed
      --connect-packed           Messages of the server, and to it, are packed
      --max-connections N        Serve at most N connections at once [default: what the descriptors allow]
      --max-per-peer N           Serve at most N connections of one peer at once [default: no limit]
      --connection-rate N        Serve at most N new connections of one peer in a second [default: no limit]
      --message-rate N           Read at most N messages of one peer in a second [default: no limit]
      --byte-rate BYTES          Read at most BYTES of messages of one peer in a second [default: no limit]
      --message-timeout DURATION End a connection if a message takes longer than this to arrive [default: 30s]
      --idle-timeout DURATION    End a connection if no byte passes for this long [default: 10m]
      --connect-timeout DURATION Wait at most this long for the server, and for the greeting of a client [default: 10s]
      --drain-timeout DURATION   Let connections go on for this long after SIGTERM [default: 30s]
      --memory BYTES             Hold at most BYTES of messages [default: 1073741824]
      --memory-per-peer BYTES    Hold at most BYTES of messages of one peer [default: a quarter of --memory]
      --listen-cert FILE         Serve TLS with this certificate
      --listen-key FILE          The key of this certificate
      --listen-client-ca FILE    Serve only clients with a certificate of these authorities
      --listen-client-name NAMES Serve only clients with one of these names, A,B,.., in their certificates
      --listen-proxy             Clients come by a proxy that sends the PROXY protocol, version 1 or 2
      --listen-proxy-from NETS   Serve only proxies of these networks, as 192.0.2.0/24,2001:db8::1
      --connect-tls              Connect to the server by TLS
      --connect-ca FILE          The authorities of the server's certificate [default: those of the system]
      --connect-name NAME        The name in this certificate [default: the host of --connect]
      --connect-cert FILE        Show this certificate to the server
      --connect-key FILE         The key of this certificate
      --connect-proxy VERSION    Send the PROXY protocol to the server, version 1 or 2
      --tls-min VERSION          The least version of TLS, 1.2 or 1.3 [default: 1.2]
      --metrics ADDRESS          Serve /metrics, /health and /ready here
      --refused-folder FOLDER    Keep the newest refused messages in this folder, each with an explanation
      --refused-bytes BYTES      Keep at most BYTES of them [default: 67108864]
      --log FORMAT               Write lines of text or of json to standard error [default: text]
      --log-rate N               Write at most N lines a second about connections, 0 for all [default: 100]
      --log-connections          Write a line about each connection that was served
      --help                     Print this
      --version                  Print the version

SIGTERM and SIGINT end it once the connections have ended. SIGHUP reads the certificates again.
Status: 0 ended by a signal, 2 wrong command line, 3 an address or a file can't be used, 127 the processor is too old.
`

// parse reads a command line. The error is about what is wrong with it.
func parse(words []string) (*options, error) {
	o := &options{}
	set := flag.NewFlagSet("capvet-guard", flag.ContinueOnError)
	set.SetOutput(io.Discard)
	set.Usage = func() {}
	set.BoolVar(&o.isVersion, "version", false, "")
	o.defineSides(set)
	o.defineTLS(set)
	o.defineRules(set)
	o.defineBounds(set)
	o.defineReports(set)
	giveOnce(set)
	defineAliases(set)
	err := set.Parse(words)
	o.isHelp = errors.Is(err, flag.ErrHelp)
	switch {
	case o.isHelp || err == nil && o.isVersion:
		return o, nil
	case err != nil:
		return nil, errors.New(withDashes.Replace(err.Error()))
	case set.NArg() > 0:
		return nil, fmt.Errorf("unexpected argument %q", set.Arg(0))
	}
	return o, o.complete()
}

// withDashes writes options as the help does, in the texts of the standard library.
var withDashes = strings.NewReplacer("for flag -", "for --", "not defined: -", "not defined: --", "argument: -", "argument: --",
	"flag provided but", "option", "flag needs", "an option needs")

// once is an option that may be given once.
type once struct {
	flag.Value
	isSet bool
}

// Set sets the option, at its first time.
func (o *once) Set(text string) error {
	if o.isSet {
		return errors.New("it is given twice")
	}
	o.isSet = true
	return o.Value.Set(text)
}

// IsBoolFlag reports whether the option needs no value.
func (o *once) IsBoolFlag() bool {
	is, ok := o.Value.(interface{ IsBoolFlag() bool })
	return ok && is.IsBoolFlag()
}

// giveOnce has each option given at most once, but for the addresses of servers.
func giveOnce(set *flag.FlagSet) {
	set.VisitAll(func(f *flag.Flag) {
		if _, ok := f.Value.(*addresses); !ok {
			f.Value = &once{Value: f.Value}
		}
	})
}

// aliases are the names that the libraries have for what two options limit.
var aliases = map[string]string{"message-words": "size", "charge": "words"}

// defineAliases gives options their other names. An option and its other name count as one.
func defineAliases(set *flag.FlagSet) {
	for alias, name := range aliases {
		set.Var(set.Lookup(name).Value, alias, "")
	}
}

// defineSides defines the options about both sides.
func (o *options) defineSides(set *flag.FlagSet) {
	set.Var(&o.listen, "listen", "")
	set.Var(&o.connect, "connect", "")
	set.Var(&o.metrics, "metrics", "")
	set.Func("listen-mode", "", func(text string) error {
		mode, err := strconv.ParseUint(text, 8, 9)
		o.listenMode = uint(mode)
		return err
	})
	set.BoolVar(&o.listenProxy, "listen-proxy", false, "")
	set.Var(&o.proxies, "listen-proxy-from", "")
	set.IntVar(&o.sendProxy, "connect-proxy", 0, "")
	set.BoolVar(&o.packed[client], "listen-packed", false, "")
	set.BoolVar(&o.packed[server], "connect-packed", false, "")
}

// defineTLS defines the options about TLS.
func (o *options) defineTLS(set *flag.FlagSet) {
	set.StringVar(&o.listenTLS.cert, "listen-cert", "", "")
	set.StringVar(&o.listenTLS.key, "listen-key", "", "")
	set.StringVar(&o.listenTLS.clientCA, "listen-client-ca", "", "")
	set.StringVar(&o.listenTLS.clientNames, "listen-client-name", "", "")
	set.BoolVar(&o.connectTLS.isOn, "connect-tls", false, "")
	set.StringVar(&o.connectTLS.ca, "connect-ca", "", "")
	set.StringVar(&o.connectTLS.name, "connect-name", "", "")
	set.StringVar(&o.connectTLS.cert, "connect-cert", "", "")
	set.StringVar(&o.connectTLS.key, "connect-key", "", "")
	set.StringVar(&o.tlsMin, "tls-min", "1.2", "")
}

// defineRules defines the options about messages.
func (o *options) defineRules(set *flag.FlagSet) {
	o.vetted = [2]bool{true, true}
	set.Func("direction", "", func(text string) (err error) {
		ways, ok := map[string][2]bool{"both": {true, true}, "requests": {true, false}, "replies": {false, true}, "none": {}}[text]
		if !ok {
			return errors.New("it is both, requests, replies or none")
		}
		o.vetted = ways
		return nil
	})
	o.limits.Depth = 64
	set.Func("depth", "", func(text string) error {
		depth, err := strconv.ParseUint(text, 10, 32)
		o.limits.Depth = uint32(depth)
		return err
	})
	set.BoolVar(&o.dryRun, "dry-run", false, "")
	o.limits.MessageWords, o.limits.Charge = 8388608, 8388608
	set.Var((*wordCount)(&o.limits.MessageWords), "size", "")
	set.Var((*wordCount)(&o.limits.Charge), "words", "")
	set.BoolVar(&o.limits.Exclusive, "exclusive", false, "")
	set.BoolVar(&o.limits.AllowNonstrict, "allow-nonstrict", false, "")
	set.BoolVar(&o.limits.AllowAmplified, "allow-amplified", false, "")
}

// defineBounds defines the options about connections, time and memory.
func (o *options) defineBounds(set *flag.FlagSet) {
	set.IntVar(&o.maxConnections, "max-connections", 0, "")
	set.IntVar(&o.maxPerPeer, "max-per-peer", 0, "")
	set.Int64Var(&o.connectionRate, "connection-rate", 0, "")
	set.Int64Var(&o.messageRate, "message-rate", 0, "")
	set.Var((*byteCount)(&o.byteRate), "byte-rate", "")
	set.DurationVar(&o.messageTimeout, "message-timeout", 30*time.Second, "")
	set.DurationVar(&o.idleTimeout, "idle-timeout", 10*time.Minute, "")
	set.DurationVar(&o.connectTimeout, "connect-timeout", 10*time.Second, "")
	set.DurationVar(&o.drainTimeout, "drain-timeout", 30*time.Second, "")
	o.memory = 1 << 30
	set.Var((*byteCount)(&o.memory), "memory", "")
	set.Var((*byteCount)(&o.memoryPerPeer), "memory-per-peer", "")
}

// defineReports defines the options about what is written of messages and connections.
func (o *options) defineReports(set *flag.FlagSet) {
	set.StringVar(&o.refusedFolder, "refused-folder", "", "")
	o.refusedBytes = 64 << 20
	set.Var((*byteCount)(&o.refusedBytes), "refused-bytes", "")
	set.StringVar(&o.log, "log", "text", "")
	set.Int64Var(&o.logRate, "log-rate", 100, "")
	set.BoolVar(&o.logConnections, "log-connections", false, "")
}

// complete says what is missing or doesn't fit, and sets what follows from the rest.
func (o *options) complete() error {
	if o.limits.Depth == 0 || o.limits.Depth > 256 || o.limits.MessageWords == 0 || o.limits.Charge == 0 {
		return errors.New("--size, --words and --depth are at least 1, and --depth is at most 256")
	}
	_, err := capvet.Vet(nil, &o.limits)
	var limits *capvet.LimitsError
	if errors.As(err, &limits) {
		return fmt.Errorf("--size and --words are at most 268435456 words, 2 GiB: %w", err)
	}
	for _, check := range []func() error{o.checkSides, o.checkTLS, o.checkBounds, o.checkMemory} {
		if err := check(); err != nil {
			return err
		}
	}
	return nil
}

// checkSides says which options about both sides don't fit.
func (o *options) checkSides() error {
	switch {
	case o.listen == address{}:
		return errors.New("--listen is missing")
	case len(o.connect) == 0:
		return errors.New("--connect is missing")
	case o.metrics.network == "systemd":
		return errors.New("only --listen may be systemd")
	case o.listenMode != 0 && o.listen.network != "unix":
		return errors.New("--listen-mode is for a Unix socket")
	case o.packed[client] != o.packed[server] && o.vetted != [2]bool{true, true}:
		return errors.New("--direction has to be both if the messages of one side alone are packed")
	case o.sendProxy < 0 || o.sendProxy > 2:
		return errors.New("--connect-proxy is 1 or 2")
	case len(o.proxies) > 0 && !o.listenProxy:
		return errors.New("--listen-proxy-from needs --listen-proxy")
	case len(o.proxies) > 0 && o.listen.network == "unix":
		return errors.New("--listen-proxy-from is for proxies that connect by TCP")
	}
	return nil
}

// checkTLS says which options about TLS don't fit.
func (o *options) checkTLS() error {
	tls := o.connectTLS
	switch {
	case (o.listenTLS.cert == "") != (o.listenTLS.key == ""):
		return errors.New("--listen-cert and --listen-key belong together")
	case o.listenTLS.clientCA != "" && o.listenTLS.cert == "":
		return errors.New("--listen-client-ca needs --listen-cert")
	case o.listenTLS.clientNames != "" && o.listenTLS.clientCA == "":
		return errors.New("--listen-client-name needs --listen-client-ca")
	case (tls.cert == "") != (tls.key == ""):
		return errors.New("--connect-cert and --connect-key belong together")
	case !tls.isOn && tls != clientFiles{}:
		return errors.New("--connect-ca, --connect-name, --connect-cert and --connect-key need --connect-tls")
	case o.tlsMin != "1.2" && o.tlsMin != "1.3":
		return errors.New("--tls-min is 1.2 or 1.3")
	}
	for _, it := range o.connect {
		if tls.isOn && tls.name == "" && it.host() == "" {
			return errors.New("--connect-tls needs --connect-name, since --connect has no host")
		}
	}
	return nil
}

// checkBounds says which other numbers and names are out of their range.
func (o *options) checkBounds() error {
	switch {
	case o.maxConnections < 0 || o.maxPerPeer < 0:
		return errors.New("--max-connections and --max-per-peer are at least 0")
	case o.connectionRate < 0 || o.messageRate < 0 || o.byteRate < 0 || o.logRate < 0:
		return errors.New("--connection-rate, --message-rate, --byte-rate and --log-rate are at least 0")
	case o.messageTimeout < 0 || o.idleTimeout < 0 || o.connectTimeout <= 0 || o.drainTimeout < 0:
		return errors.New("a timeout is at least 0, and --connect-timeout is above 0")
	case o.log != "text" && o.log != "json":
		return fmt.Errorf("--log is text or json, and not %q", o.log)
	case o.refusedBytes < 1<<20:
		return errors.New("--refused-bytes is at least 1048576")
	}
	return nil
}

// checkMemory says whether a message of --size can be held. While its buffer grows there are two of them, and a reply may be
// held at the same time. A peer has a quarter of the memory, and at least so much.
func (o *options) checkMemory() error {
	least := 3 * 8 * int64(o.limits.MessageWords)
	if o.memoryPerPeer == 0 {
		if o.memoryPerPeer = o.memory / 4; o.memoryPerPeer < least {
			o.memoryPerPeer = least
		}
	}
	if o.memory < 1<<20 || o.memoryPerPeer < least || o.memory < o.memoryPerPeer {
		return fmt.Errorf("--memory is at least 1048576, and --memory and --memory-per-peer are at least 24 times --size, here %d. "+
			"--memory-per-peer is at most --memory", least)
	}
	return nil
}
