package main

import (
	"io"
	"net"
	"sort"
	"time"
)

// rounds is how often each proxy has its turn. The best rate of each counts.
const rounds = 5

// rates returns how many MB a second go through each proxy in one direction, in messages of this many bytes.
func rates(at string, areReplies bool, messageBytes, total int, proxies []string) []float64 {
	listener, err := net.Listen("tcp", at)
	must(err)
	one := of(messageBytes)
	var block []byte
	for len(block) < 1<<18 {
		block = append(block, one...)
	}
	best := make([]float64, len(proxies))
	for round := 0; round < rounds; round++ {
		for i, proxy := range proxies {
			if rate := rate(listener, proxy, areReplies, block, total/len(block)+1); rate > best[i] {
				best[i] = rate
			}
		}
	}
	return best
}

// rate sends a block so many times, and returns the MB a second at which they arrive.
func rate(listener net.Listener, proxy string, areReplies bool, block []byte, times int) float64 {
	conn := dial(proxy)
	defer conn.Close()
	server, err := listener.Accept()
	must(err)
	defer server.Close()
	from, to := conn, server
	if areReplies {
		from, to = server, conn
	}
	begin := time.Now()
	go func() {
		for i := 0; i < times; i++ {
			_, err := from.Write(block)
			must(err)
		}
		must(from.(*net.TCPConn).CloseWrite())
	}()
	n, err := io.CopyBuffer(struct{ io.Writer }{io.Discard}, struct{ io.Reader }{to}, make([]byte, 1<<18))
	must(err)
	if n != int64(len(block)*times) {
		must(io.ErrUnexpectedEOF)
	}
	return float64(n) / 1e6 / time.Since(begin).Seconds()
}

// latencies returns the median and the 99th percentile of a call of 1 KiB by each proxy, in microseconds.
func latencies(at string, calls int, proxies []string) [][2]float64 {
	listener, err := net.Listen("tcp", at)
	must(err)
	one := of(1024)
	took := make([][]time.Duration, len(proxies))
	for round := 0; round < rounds; round++ {
		for i, proxy := range proxies {
			took[i] = append(took[i], timed(listener, proxy, one, calls/rounds)...)
		}
	}
	found := make([][2]float64, len(proxies))
	for i, all := range took {
		sort.Slice(all, func(x, y int) bool { return all[x] < all[y] })
		for k, part := range [2]int{50, 99} {
			found[i][k] = float64(all[len(all)*part/100].Nanoseconds()) / 1e3
		}
	}
	return found
}

// timed makes calls one after the other.
func timed(listener net.Listener, proxy string, one []byte, calls int) []time.Duration {
	conn := dial(proxy)
	defer conn.Close()
	server, err := listener.Accept()
	must(err)
	go func() {
		defer server.Close()
		b := make([]byte, len(one))
		for {
			if _, err := io.ReadFull(server, b); err != nil {
				return
			}
			server.Write(b)
		}
	}()
	took := make([]time.Duration, calls)
	reply := make([]byte, len(one))
	for i := range took {
		begin := time.Now()
		_, err := conn.Write(one)
		must(err)
		_, err = io.ReadFull(conn, reply)
		must(err)
		took[i] = time.Since(begin)
	}
	return took
}
