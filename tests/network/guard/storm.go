package main

import (
	"bytes"
	"fmt"
	"io"
	"net"
	"os"
	"sync"
	"sync/atomic"
	"time"
)

// patience is how long a connection may take. Only a hang takes longer.
const patience = 20 * time.Minute

// plan is what a connection sends, and how much of it has to arrive.
type plan struct {
	sent   []byte
	passed int // bytes that are accepted before the first refused message
	count  int // messages of these
}

// planned returns what a connection sends. Every seventh one sends a circle in the middle, and every thirteenth one a message
// of 300 KB.
func planned(connection, messages int) plan {
	var p plan
	isRefused := connection%7 == 3
	for i := 0; i < messages; i++ {
		if isRefused && i == messages/2 {
			p.passed, p.count = len(p.sent), i
			p.sent = append(p.sent, cycle()...)
		}
		list := (connection + i) % 9
		if i == messages-1 && connection%13 == 5 {
			list = 37500
		}
		p.sent = append(p.sent, message(connection, i, list)...)
	}
	if !isRefused {
		p.passed, p.count = len(p.sent), messages
	}
	return p
}

// tally counts over all connections.
type tally struct{ messages, lost, wrong, echoes atomic.Int64 }

// storm opens all connections, and then sends on all of them. The server sends back what it gets, and the file gets all of
// it. It returns how many messages arrived, connections of which some were lost, of which more arrived, and connections
// whose replies were whole.
func storm(proxy, at string, connections, messages int, file string) string {
	listener, err := net.Listen("tcp", at)
	must(err)
	out, err := os.Create(file)
	must(err)
	var counted tally
	var all, open sync.WaitGroup
	var lock sync.Mutex
	all.Add(2 * connections)
	open.Add(connections)
	go func() {
		for i := 0; i < connections; i++ {
			conn, err := listener.Accept()
			must(err)
			go func() {
				defer all.Done()
				got := echo(conn)
				compare(got, messages, &counted)
				lock.Lock()
				defer lock.Unlock()
				_, err := out.Write(got)
				must(err)
			}()
		}
	}()
	for i := 0; i < connections; i++ {
		go func(i int) {
			defer all.Done()
			conn := dial(proxy)
			defer conn.Close()
			open.Done()
			open.Wait()
			call(conn, planned(i, messages), &counted)
		}(i)
	}
	all.Wait()
	must(out.Close())
	return fmt.Sprint(counted.messages.Load(), counted.lost.Load(), counted.wrong.Load(), counted.echoes.Load())
}

// dial connects, and tries again if the backlog of the proxy is full.
func dial(proxy string) net.Conn {
	for tries := 0; ; tries++ {
		conn, err := net.Dial("tcp", proxy)
		if err == nil {
			must(conn.SetDeadline(time.Now().Add(patience)))
			return conn
		}
		if tries == 1200 {
			must(err)
		}
		time.Sleep(100 * time.Millisecond)
	}
}

// echo sends back what comes, and returns it. (It goes on reading if the other side takes nothing more.)
func echo(conn net.Conn) []byte {
	defer conn.Close()
	must(conn.SetDeadline(time.Now().Add(patience)))
	var got bytes.Buffer
	io.Copy(io.MultiWriter(&got, quiet{conn}), conn)
	return got.Bytes()
}

// quiet is a writer whose errors nobody gets.
type quiet struct{ w io.Writer }

func (q quiet) Write(b []byte) (int, error) {
	q.w.Write(b)
	return len(b), nil
}

// compare counts what the server got of a connection.
func compare(got []byte, messages int, counted *tally) {
	if len(got) < 40 {
		counted.lost.Add(1)
		return
	}
	p := planned(connectionOf(got), messages)
	want := p.sent[:p.passed]
	switch {
	case bytes.Equal(got, want):
		counted.messages.Add(int64(p.count))
	case bytes.HasPrefix(want, got):
		counted.lost.Add(1)
	default:
		counted.wrong.Add(1)
	}
}

// call sends what is planned, and compares the replies. A refused message ends them, maybe before the last one.
func call(conn net.Conn, p plan, counted *tally) {
	go func() {
		conn.Write(p.sent)
		conn.(*net.TCPConn).CloseWrite()
	}()
	got, _ := io.ReadAll(conn)
	isWhole := bytes.Equal(got, p.sent)
	if p.passed < len(p.sent) {
		isWhole = bytes.HasPrefix(p.sent[:p.passed], got)
	}
	if isWhole {
		counted.echoes.Add(1)
	}
}
