package main

import (
	"net"
	"net/netip"
	"sync"
	"time"
)

// peer is what the connections of one address have in common.
type peer struct {
	key    string // its address, or empty if its connections are not counted together
	count  int    // its connections
	memory budget // its part of --memory
	// the rates of its connections, and of the messages and bytes that it sends
	connections, messages, bytes bucket
}

// isIdle reports whether nothing is known of a peer that has to be kept.
func (p *peer) isIdle() bool {
	return p.count == 0 && p.connections.isFull() && p.messages.isFull() && p.bytes.isFull()
}

// peers are the peers that have connections, or whose rates still count.
type peers struct {
	options *options
	memory  *budget
	lock    sync.Mutex
	known   map[string]*peer
	swept   time.Duration // when peers were last forgotten
}

// prefixOf returns what counts as one address: an IPv4 address, or the 64 bits of a network of IPv6. It is not valid for
// other addresses.
func prefixOf(a net.Addr) netip.Prefix {
	tcp, ok := a.(*net.TCPAddr)
	if !ok {
		return netip.Prefix{}
	}
	ip := tcp.AddrPort().Addr().Unmap().WithZone("")
	bits := 64
	if ip.Is4() {
		bits = 32
	}
	prefix, err := ip.Prefix(bits)
	if err != nil {
		return netip.Prefix{}
	}
	return prefix
}

// keyOf returns a text for all connections that count as those of one peer. Those of a Unix socket do if a proxy has announced
// them, since then nothing else says who they are. Else it is empty: each of them counts by itself.
func keyOf(a net.Addr, isAnnounced bool) string {
	prefix := prefixOf(a)
	switch {
	case prefix.IsValid():
		return prefix.String()
	case isAnnounced:
		return "unix"
	}
	return ""
}

// added returns a new peer.
func (p *peers) added(key string) *peer {
	o := p.options
	return &peer{key: key, memory: budget{most: o.memoryPerPeer, whole: p.memory}, connections: bucket{rate: o.connectionRate},
		messages: bucket{rate: o.messageRate}, bytes: bucket{rate: o.byteRate}}
}

// enter counts a connection of a peer. The cause is why the peer may not have it, or empty.
func (p *peers) enter(key string) (it *peer, why cause) {
	if key == "" {
		return p.added(key), ""
	}
	p.lock.Lock()
	defer p.lock.Unlock()
	p.sweep()
	if p.known == nil {
		p.known = map[string]*peer{}
	}
	it = p.known[key]
	if it == nil {
		it = p.added(key)
		p.known[key] = it
	}
	switch {
	case p.options.maxPerPeer > 0 && it.count >= p.options.maxPerPeer:
		return nil, manyOfPeer
	case !it.connections.allow(1):
		return nil, overRateOfPeer
	}
	it.count++
	return it, ""
}

// sweep forgets idle peers, once in a while.
func (p *peers) sweep() {
	if now()-p.swept < burst {
		return
	}
	p.swept = now()
	for key, it := range p.known {
		if it.isIdle() {
			delete(p.known, key)
		}
	}
}

// leave takes a connection away that has entered.
func (p *peers) leave(it *peer) {
	if it.key == "" {
		return
	}
	p.lock.Lock()
	defer p.lock.Unlock()
	if it.count--; it.isIdle() {
		delete(p.known, it.key)
	}
}
