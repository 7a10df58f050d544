package main

import (
	"bytes"
	"fmt"
	"io"
	"math/rand"
	"net"
	"strings"
	"sync"
	"sync/atomic"
	"time"
)

// ending is how a sender ends its stream.
type ending int

const (
	whole   ending = iota // after its last message
	refused               // with a message that isn't accepted, and others after it
	cut                   // inside a message
	reset                 // by a reset
)

func (e ending) String() string { return [...]string{"whole", "refused", "cut", "reset"}[e] }

// script is what one end of a connection sends.
type script struct {
	ending ending
	sent   []byte
	passed int // bytes that are accepted
	random *rand.Rand
}

// scripted returns what the end of a connection sends: the same for the same numbers.
func scripted(seed int64, connection, end, messages int) script {
	s := script{random: rand.New(rand.NewSource(seed*1000003 + int64(2*connection+end)))}
	if n := s.random.Intn(10); n < 4 {
		s.ending = ending(n)
	}
	at := 1 + s.random.Intn(messages-1)
	for i := 0; i < messages; i++ {
		if i == at && s.ending != whole {
			s.passed = len(s.sent)
			if s.ending == refused {
				s.sent = append(s.sent, cycle()...)
			}
		}
		list := s.random.Intn(12)
		if s.random.Intn(40) == 0 {
			list = s.random.Intn(20000)
		}
		s.sent = append(s.sent, message(connection, i, list)...)
	}
	if s.ending == cut || s.ending == reset {
		s.sent = s.sent[:s.passed+1+s.random.Intn(len(s.sent)-s.passed+1)%8]
	}
	if s.ending == whole {
		s.passed = len(s.sent)
	}
	return s
}

// play sends a script in pieces, and returns what comes.
func (s script) play(conn *net.TCPConn) []byte {
	must(conn.SetDeadline(time.Now().Add(patience)))
	got := make(chan []byte)
	go func() {
		b, _ := io.ReadAll(conn)
		got <- b
	}()
	for b := s.sent; len(b) > 0; {
		n := 1 + s.random.Intn(1+s.random.Intn(4000))
		if n > len(b) {
			n = len(b)
		}
		if _, err := conn.Write(b[:n]); err != nil {
			break
		}
		b = b[n:]
		if s.random.Intn(50) == 0 {
			time.Sleep(time.Duration(s.random.Intn(2000)) * time.Microsecond)
		}
	}
	if s.ending == reset {
		conn.SetLinger(0)
		conn.Close()
	} else {
		conn.CloseWrite()
	}
	return <-got
}

// mayBeShort reports whether what this script sends may arrive in part: if the other end, or a reset, ends the connection.
func (s script) mayBeShort(other script) bool {
	return s.ending == reset || other.ending != whole
}

// right reports whether what came of a script is right: a prefix of what is accepted, and all of it if nothing else has ended
// the connection. Of a dry run all of it comes.
func (s script) right(got []byte, other script, isDry bool) bool {
	want := s.sent[:s.passed]
	if isDry {
		want = s.sent
	}
	if s.mayBeShort(other) && !(isDry && s.ending != reset && other.ending != reset) {
		return bytes.HasPrefix(want, got)
	}
	return bytes.Equal(want, got)
}

// exact plays scripts over connections, so many at once. It returns how many directions were right, how many were wrong, and
// how many of the right ones had to be whole. A line for each wrong one follows.
func exact(proxy, at string, connections, messages int, seed int64, isDry bool) string {
	const atOnce = 100
	listener, err := net.Listen("tcp", at)
	must(err)
	var right, complete atomic.Int64
	var lock sync.Mutex
	var wrong []string
	note := func(s, other script, got []byte) {
		switch {
		case !s.right(got, other, isDry):
			lock.Lock()
			defer lock.Unlock()
			wrong = append(wrong, fmt.Sprintf("\n%s beside %s: %d of %d bytes came, the sent ones: %t", s.ending, other.ending, len(got),
				s.passed, bytes.HasPrefix(s.sent, got)))
		case s.mayBeShort(other):
			right.Add(1)
		default:
			right.Add(1)
			complete.Add(1)
		}
	}
	var all sync.WaitGroup
	places := make(chan bool, atOnce)
	for i := 0; i < connections; i++ {
		places <- true
		all.Add(1)
		// (one after the other, so that each end knows the other one)
		conn := dial(proxy).(*net.TCPConn)
		server, err := listener.Accept()
		must(err)
		go func(i int) {
			defer all.Done()
			defer func() { <-places }()
			requests, replies := scripted(seed, i, 0, messages), scripted(seed, i, 1, messages)
			came := make(chan []byte)
			go func() { came <- replies.play(server.(*net.TCPConn)) }()
			note(replies, requests, requests.play(conn))
			note(requests, replies, <-came)
			conn.Close()
			server.Close()
		}(i)
	}
	all.Wait()
	return fmt.Sprint(right.Load(), len(wrong), complete.Load()) + strings.Join(wrong, "")
}
