package main

import (
	"bytes"
	"fmt"
	"io"
	"math/rand"
	"net"
	"sync"
	"sync/atomic"
	"time"
)

// calls counts the calls of good clients: those that were answered, and those that were not or wrongly.
type calls struct{ answered, wrong, connections, hostile atomic.Int64 }

// hostility is what a hostile client does with a connection, until it has had enough.
var hostility = []func(conn *net.TCPConn, r *rand.Rand){
	func(conn *net.TCPConn, _ *rand.Rand) { conn.Write(cycle()) },
	func(conn *net.TCPConn, r *rand.Rand) {
		b := make([]byte, r.Intn(100000))
		r.Read(b)
		conn.Write(b)
	},
	// (a claim of 64 MiB, with and without a part of it)
	func(conn *net.TCPConn, r *rand.Rand) {
		conn.Write(words(nil, 1<<55))
		conn.Write(make([]byte, r.Intn(2<<20)))
		time.Sleep(time.Duration(r.Intn(3000)) * time.Millisecond)
	},
	func(conn *net.TCPConn, _ *rand.Rand) {
		for _, b := range message(1, 2, 1) {
			conn.Write([]byte{b})
			time.Sleep(100 * time.Millisecond)
		}
	},
	// (one that sends and reads nothing)
	func(conn *net.TCPConn, _ *rand.Rand) {
		conn.SetDeadline(time.Now().Add(3 * time.Second))
		for b := bytes.Repeat(of(4000), 100); ; {
			if _, err := conn.Write(b); err != nil {
				return
			}
		}
	},
	func(conn *net.TCPConn, r *rand.Rand) {
		conn.Write(of(40)[:r.Intn(40)])
		conn.SetLinger(0)
	},
	func(conn *net.TCPConn, _ *rand.Rand) {
		conn.Write(append(bytes.Repeat(of(40), 5000), cycle()...))
		io.Copy(io.Discard, conn)
	},
	func(conn *net.TCPConn, _ *rand.Rand) { time.Sleep(time.Second) },
	func(conn *net.TCPConn, _ *rand.Rand) { conn.CloseWrite(); io.Copy(io.Discard, conn) },
	func(conn *net.TCPConn, _ *rand.Rand) {
		for i := 0; i < 20; i++ {
			if conn.Write(of(600000)); i%2 == 0 {
				time.Sleep(10 * time.Millisecond)
			}
		}
		conn.Write(of(600000)[:300000])
	},
}

// slowness is what a client does until the proxy has had enough: it sends nothing, or a byte now and then.
var slowness = []func(conn *net.TCPConn, r *rand.Rand){
	func(conn *net.TCPConn, _ *rand.Rand) {
		conn.SetDeadline(time.Now().Add(patience))
		io.Copy(io.Discard, conn)
	},
	func(conn *net.TCPConn, _ *rand.Rand) {
		conn.SetDeadline(time.Now().Add(patience))
		for _, b := range of(40000) {
			if _, err := conn.Write([]byte{b}); err != nil {
				return
			}
			time.Sleep(100 * time.Millisecond)
		}
	},
}

// hostile makes hostile connections of some kinds until it is told to end.
func hostile(proxy string, seed int64, kinds []func(*net.TCPConn, *rand.Rand), counted *calls, end <-chan bool) {
	r := rand.New(rand.NewSource(seed))
	for {
		select {
		case <-end:
			return
		default:
		}
		conn, err := net.Dial("tcp", proxy)
		if err != nil {
			time.Sleep(10 * time.Millisecond)
			continue
		}
		conn.SetDeadline(time.Now().Add(10 * time.Second))
		counted.hostile.Add(1)
		kinds[r.Intn(len(kinds))](conn.(*net.TCPConn), r)
		conn.Close()
		time.Sleep(time.Duration(r.Intn(40)) * time.Millisecond)
	}
}

// good makes calls until it is told to end: each message comes back as it is.
func good(proxy string, number int, counted *calls, end <-chan bool) {
	r := rand.New(rand.NewSource(int64(number)))
	for {
		conn := dial(proxy)
		counted.connections.Add(1)
		for calls := r.Intn(200); calls >= 0; calls-- {
			select {
			case <-end:
				conn.Close()
				return
			default:
			}
			list := r.Intn(130)
			if r.Intn(100) == 0 {
				list = r.Intn(50000)
			}
			one := message(number, calls, list)
			go conn.Write(one)
			got := make([]byte, len(one))
			if _, err := io.ReadFull(conn, got); err != nil || !bytes.Equal(got, one) {
				counted.wrong.Add(1)
				break
			}
			counted.answered.Add(1)
		}
		conn.Close()
	}
}

// soak has good and hostile clients for a time, and until so many calls are over, before a server that sends back what it gets. It
// returns how many calls were answered, how many were not, and the good and the hostile connections.
func soak(proxy, at string, seconds, least, goods, hostiles, slow int) string {
	listener, err := net.Listen("tcp", at)
	must(err)
	go func() {
		for {
			conn, err := listener.Accept()
			if err != nil {
				return
			}
			go func() {
				defer conn.Close()
				io.CopyBuffer(struct{ io.Writer }{conn}, struct{ io.Reader }{conn}, make([]byte, 64<<10))
			}()
		}
	}()
	var counted calls
	var all sync.WaitGroup
	end := make(chan bool)
	for i := 0; i < goods+hostiles+slow; i++ {
		all.Add(1)
		go func(i int) {
			defer all.Done()
			switch {
			case i < goods:
				good(proxy, i, &counted, end)
			case i < goods+hostiles:
				hostile(proxy, int64(i), hostility, &counted, end)
			default:
				hostile(proxy, int64(i), slowness[i%2:][:1], &counted, end)
			}
		}(i)
	}
	time.Sleep(time.Duration(seconds) * time.Second)
	// (a busy machine takes longer)
	for until := time.Now().Add(patience); counted.answered.Load()+counted.wrong.Load() < int64(least) && time.Now().Before(until); {
		time.Sleep(100 * time.Millisecond)
	}
	close(end)
	all.Wait()
	return fmt.Sprint(counted.answered.Load(), counted.wrong.Load(), counted.connections.Load(), counted.hostile.Load())
}
