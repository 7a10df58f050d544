package main

import (
	"net"
	"sync"
)

// maxAskers is how many connections the address of the metrics has at once. The descriptors that clients don't get are more.
const maxAskers = 16

// few is a listener with few connections at once. A new one takes the place of the oldest, so that askers who say nothing keep nobody
// out.
type few struct {
	net.Listener
	lock sync.Mutex
	open []*asker // from the oldest on
}

// asker is a connection of such a listener.
type asker struct {
	net.Conn
	of *few
}

// Accept accepts a connection.
func (f *few) Accept() (net.Conn, error) {
	conn, err := f.Listener.Accept()
	if err != nil {
		return nil, err
	}
	f.lock.Lock()
	defer f.lock.Unlock()
	if len(f.open) == maxAskers {
		f.open[0].Conn.Close()
		f.open = f.open[1:]
	}
	it := &asker{conn, f}
	f.open = append(f.open, it)
	return it, nil
}

// Close closes a connection.
func (a *asker) Close() error {
	a.of.lock.Lock()
	defer a.of.lock.Unlock()
	for i, it := range a.of.open {
		if it == a {
			a.of.open = append(a.of.open[:i:i], a.of.open[i+1:]...)
		}
	}
	return a.Conn.Close()
}
