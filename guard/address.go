package main

import (
	"errors"
	"fmt"
	"io/fs"
	"net"
	"net/netip"
	"os"
	"strings"
	"syscall"

	"github.com/coreos/go-systemd/activation"
)

// address is where to listen or to connect. It is a flag.Value.
type address struct {
	network string // tcp, unix or systemd
	place   string // HOST:PORT, a path, or the name of a socket
}

// addressOf reads the text of an address.
func addressOf(text string) (address, error) {
	if path, ok := cut(text, "unix:"); ok {
		if path == "" {
			return address{}, errors.New("unix: needs a path")
		}
		return address{"unix", path}, nil
	}
	if name, ok := cut(text, "systemd:"); ok || text == "systemd" {
		if text == "systemd" {
			name = ""
		}
		return address{"systemd", name}, nil
	}
	_, port, err := net.SplitHostPort(text)
	if err != nil {
		return address{}, fmt.Errorf("it is neither HOST:PORT nor unix:PATH: %w", err)
	}
	if _, err := net.LookupPort("tcp", port); err != nil {
		return address{}, err
	}
	return address{"tcp", text}, nil
}

// Set reads the text of an address.
func (a *address) Set(text string) (err error) {
	*a, err = addressOf(text)
	return err
}

func (a *address) String() string { return a.text() }

// text returns the address as an option has it.
func (a address) text() string {
	if a.network == "tcp" || a.network == "" {
		return a.place
	}
	return a.network + ":" + a.place
}

// cut removes a prefix, if it is there.
func cut(text, prefix string) (string, bool) {
	if !strings.HasPrefix(text, prefix) {
		return text, false
	}
	return text[len(prefix):], true
}

// host returns the host of a TCP address, which is the name that a certificate has to have.
func (a address) host() string {
	host, _, err := net.SplitHostPort(a.place)
	if err != nil {
		return ""
	}
	return host
}

// port returns the port of a TCP address, and 0 for others.
func (a address) port() int {
	_, text, err := net.SplitHostPort(a.place)
	if err != nil || a.network != "tcp" {
		return 0
	}
	port, err := net.LookupPort("tcp", text)
	if err != nil {
		return 0
	}
	return port
}

// addresses are the values of an option that may be given several times. They are a flag.Value.
type addresses []address

// Set reads one more address of a server.
func (a *addresses) Set(text string) error {
	it, err := addressOf(text)
	switch {
	case err != nil:
		return err
	case it.network == "systemd":
		return errors.New("only --listen may be systemd")
	case it.network == "tcp" && it.port() == 0:
		return errors.New("the port of a server is 1 to 65535")
	}
	*a = append(*a, it)
	return nil
}

func (a *addresses) String() string { return fmt.Sprint(*a) }

// leadsTo reports whether an address leads to this listener.
func (a address) leadsTo(listener net.Listener) bool {
	switch at := listener.Addr().(type) {
	case *net.UnixAddr:
		return a.network == "unix" && isSameFile(at.Name, a.place)
	case *net.TCPAddr:
		if a.port() != at.Port {
			return false
		}
		to, err := net.ResolveTCPAddr("tcp", a.place)
		return err == nil && (to.IP == nil || to.IP.IsUnspecified() || to.IP.Equal(at.IP) || at.IP.IsUnspecified() && isOurs(to.IP))
	}
	return false
}

// isSameFile reports whether two paths lead to the same file.
func isSameFile(x, y string) bool {
	one, err := os.Stat(x)
	other, wrong := os.Stat(y)
	return err == nil && wrong == nil && os.SameFile(one, other)
}

// isOurs reports whether this machine has an address.
func isOurs(ip net.IP) bool {
	all, err := net.InterfaceAddrs()
	if err != nil || ip.IsLoopback() {
		return ip.IsLoopback()
	}
	for _, it := range all {
		if network, ok := it.(*net.IPNet); ok && network.IP.Equal(ip) {
			return true
		}
	}
	return false
}

// networks are those of an option, as 192.0.2.0/24,2001:db8::/32. They are a flag.Value.
type networks []netip.Prefix

// Set reads networks, or single addresses.
func (n *networks) Set(text string) error {
	for _, part := range strings.Split(text, ",") {
		prefix, err := netip.ParsePrefix(part)
		if ip, wrong := netip.ParseAddr(part); wrong == nil {
			prefix, err = ip.Prefix(ip.BitLen())
		}
		if err != nil {
			return err
		}
		*n = append(*n, prefix)
	}
	return nil
}

func (n *networks) String() string { return fmt.Sprint(*n) }

// contains reports whether an address is of one of these networks.
func contains(all networks, a net.Addr) bool {
	tcp, ok := a.(*net.TCPAddr)
	if !ok {
		return false
	}
	ip := tcp.AddrPort().Addr().Unmap().WithZone("")
	for _, it := range all {
		if it.Contains(ip) {
			return true
		}
	}
	return false
}

// open listens at an address. A Unix socket has this mode, if it is not 0.
func (a address) open(mode fs.FileMode) (net.Listener, error) {
	switch a.network {
	case "systemd":
		return activated(a.place)
	case "unix":
		return openSocket(a.place, mode)
	}
	return net.Listen(a.network, a.place)
}

// activated returns the socket of this name that systemd opened, or the only one if there is no name.
func activated(name string) (net.Listener, error) {
	byName, err := activation.ListenersWithNames()
	if err != nil {
		return nil, err
	}
	var found []net.Listener
	for its, listeners := range byName {
		if name == "" || name == its {
			found = append(found, listeners...)
		}
	}
	if len(found) != 1 {
		return nil, fmt.Errorf("systemd opened %d sockets for this name, and not one", len(found))
	}
	return found[0], nil
}

// removeStale removes a Unix socket at which nobody listens.
func removeStale(path string) error {
	info, err := os.Lstat(path)
	if errors.Is(err, fs.ErrNotExist) || err == nil && info.Mode()&fs.ModeSocket == 0 {
		return nil
	}
	if err != nil {
		return err
	}
	conn, err := net.Dial("unix", path)
	if err == nil {
		return conn.Close()
	}
	if errors.Is(err, syscall.ECONNREFUSED) {
		return os.Remove(path)
	}
	return nil
}
