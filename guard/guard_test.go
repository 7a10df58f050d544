package main

import (
	"bytes"
	"io"
	"net"
	"strconv"
	"strings"
	"testing"
	"time"

	"capvet.invalid/capvet"
	"github.com/prometheus/client_golang/prometheus"
	dto "github.com/prometheus/client_model/go"
)

func half0(conn net.Conn) half { return conn.(half) }

func TestMessagesPass(t *testing.T) {
	r := newRig(t)
	client, server := r.pair()
	messages := [][]byte{empty, shared, large(100), large(20000), empty, large(300000)}
	for _, message := range messages {
		go sends(client, message)
		gets(t, "a request", server, message)
		go sends(server, message)
		gets(t, "a reply", client, message)
	}
	r.counts("requests", r.guard.metrics.directions[requests].messages, float64(len(messages)))
	r.counts("bytes of replies", r.guard.metrics.directions[replies].bytes, float64(len(join(messages...))))
	go sends(client, join(messages...))
	gets(t, "requests together", server, join(messages...))
	half0(client).CloseWrite()
	ends(t, "the server after the client's end", server, nil)
	sends(server, empty)
	half0(server).CloseWrite()
	ends(t, "the client after the server's end", client, empty)
	r.counts("connections that ended", r.guard.metrics.ended.WithLabelValues("closed"), 1)
	if text := r.log.String(); text != "" {
		t.Error(text)
	}
}

// A message comes while the next one isn't whole, wherever that one is cut.
func TestAMessageAndAPart(t *testing.T) {
	for _, words := range [][]string{nil, {"--listen-packed"}, {"--connect-packed"}, {"--listen-packed", "--connect-packed"}} {
		r := newRig(t, words...)
		packed := r.guard.options.packed
		form := func(side side, message []byte) []byte {
			if !packed[side] {
				return message
			}
			b, err := capvet.AppendPackedMessage(nil, message, nil)
			if err != nil {
				t.Fatal(err)
			}
			return b
		}
		client, server := r.pair()
		for _, way := range []struct {
			from, to   net.Conn
			sent, come side
		}{{client, server, 0, 1}, {server, client, 1, 0}} {
			next := form(way.sent, large(40))
			for cut := 0; cut < len(next); cut += 37 {
				sends(way.from, join(form(way.sent, shared), next[:cut]))
				gets(t, "a message before a part", way.to, form(way.come, shared))
				sends(way.from, next[cut:])
				gets(t, "the message of the part", way.to, form(way.come, large(40)))
			}
		}
	}
}

// pastTheEnd returns a message whose pointer at this byte leads past the end of its segment.
func pastTheEnd(message []byte, at int) []byte {
	b := append([]byte(nil), message...)
	b[at+1] = 1
	return b
}

// What comes before a refused message arrives, and nothing of it. Both ends are closed, and no other connection.
func TestRefusals(t *testing.T) {
	r := newRig(t)
	other, otherServer := r.pair()
	many, deep := bytes.Repeat(empty, 100000), " path "+strings.Repeat("/p0", 64)+"\n"
	outside, root := pastTheEnd(shared, 24), pastTheEnd(shared, 8)
	for i, row := range []struct {
		name         string
		sent, passed []byte
		said         string
	}{
		{"a circle at first", cycle, nil, "message 0: refused DepthLimit at 0:0 pointers 65 offset 0" + deep},
		{"a circle", join(empty, shared, cycle), join(empty, shared), "message 2: refused DepthLimit at 0:0 pointers 65 offset 56" + deep},
		{"a circle after many", join(many, cycle), many, "message 100000: refused DepthLimit at 0:0 pointers 65 offset 1600000" + deep},
		{"a pointer past the end", join(shared, outside), shared, "message 1: refused OutOfSegment at 0:2 pointers 3 offset 40 path /p1\n"},
		{"a root past the end", root, nil, "message 0: refused OutOfSegment at 0:0 pointers 1 offset 0 path /\n"},
		{"a circle before many", join(empty, cycle, many), empty, "message 1: refused DepthLimit"},
		{"too many segments", join(empty, []byte{0, 2, 0, 0, 0, 0, 0, 0}), empty, "message 1: TooManySegments 513 offset 16\n"},
		{"too many words", []byte{0, 0, 0, 0, 1, 0, 128, 0}, nil, "message 0: TooLarge 8388609 offset 0\n"},
		{"no root", []byte{0, 0, 0, 0, 0, 0, 0, 0}, nil, "message 0: refused NoRoot at 0:0 pointers 0 offset 0\n"},
	} {
		for _, isReply := range []bool{false, true} {
			client, server := r.pair()
			from, to, direction := client, server, requests
			if isReply {
				from, to, direction = server, client, replies
			}
			go sends(from, row.sent)
			ends(t, row.name, to, row.passed)
			ends(t, row.name+", the sender", from, nil)
			r.logs(direction.String()+" "+row.said, client.LocalAddr().String())
			_ = i
		}
	}
	r.counts("refusals", r.guard.metrics.refusals.WithLabelValues("requests", "DepthLimit"), 4)
	r.counts("refusals", r.guard.metrics.refusals.WithLabelValues("replies", "TooManySegments"), 1)
	sends(other, empty)
	gets(t, "another connection", otherServer, empty)
	sends(otherServer, empty)
	gets(t, "another connection, back", other, empty)
}

// The log says what the first bytes of a direction may be, if they are of another format, or in the other form.
func TestGuesses(t *testing.T) {
	const isPacked = true
	packed := mustPackWords(t, shared)
	for _, row := range []struct {
		isPacked bool
		sent     []byte
		said     string
	}{
		{!isPacked, []byte("\x1f\x8b\x08\x00\x00\x00\x00\x00"), "TooManySegments 559904 offset 0 guess gzip\n"},
		{!isPacked, []byte("\x16\x03\x01\x02\x00\x01\x00\x01"), "TooManySegments 33620759 offset 0 guess tls\n"},
		{!isPacked, []byte("\x14\x03\x05\x02\x00\x01\x00\x01"), "TooManySegments 33882901 offset 0\n"},
		{!isPacked, []byte("GET / HTTP/1.1\r\n"), "TooManySegments 542393672 offset 0 guess text\n"},
		{!isPacked, []byte("0AAP0AAP"), "TooManySegments 1346453809 offset 0 guess packed\n"},
		{!isPacked, packed, " offset 0 guess packed\n"},
		{!isPacked, []byte("\x10\x00\x01\x01\x00\x00\x00\x00"), "TooManySegments 16842769 offset 0\n"},
		{!isPacked, join(empty, []byte("GET / HTTP/1.1\r\n")), "TooManySegments 542393672 offset 16\n"},
		{isPacked, []byte("\x1f\x8b\x08\x00\x00\x00\x00\x00"), "TooManySegments 2188 offset 0 guess gzip\n"},
		{isPacked, []byte("\x16\x03\x01\x02\x00\x01\x00\x01"), "TooManySegments 66305 offset 0 guess tls\n"},
		{isPacked, shared, "refused NoRoot at 0:0 pointers 0 offset 0 guess unpacked\n"},
		{isPacked, join(packed, []byte{0, 0}), "refused NoRoot at 0:0 pointers 0 offset " + strconv.Itoa(len(packed)) + "\n"},
	} {
		var words []string
		if row.isPacked {
			words = []string{"--listen-packed"}
		}
		r := newRig(t, words...)
		client, server := r.pair()
		go sends(client, row.sent)
		io.Copy(io.Discard, server)
		r.logs(row.said, client.LocalAddr().String())
	}
	r := newRig(t, "--log", "json")
	client, server := r.pair()
	go sends(client, packed)
	io.Copy(io.Discard, server)
	r.logs(`"guess":"packed"`, client.LocalAddr().String())
}

// A stream that is cut inside a message ends both directions, and nothing of the message arrives.
func TestCutMessages(t *testing.T) {
	for _, words := range [][]string{nil, {"--listen-packed", "--connect-packed"}} {
		r := newRig(t, words...)
		for _, cut := range []int{1, 7, 8, 15} {
			client, server := r.pair()
			first, part := empty, empty[:cut]
			if words != nil {
				packed := mustPackWords(t, shared)
				first, part = packed, packed[:cut%len(packed)]
				sends(client, first)
				gets(t, "a message", server, mustPack(t, shared))
			} else {
				sends(client, first)
				gets(t, "a message", server, first)
			}
			sends(client, part)
			half0(client).CloseWrite()
			ends(t, "a cut request", server, nil)
			ends(t, "the sender of a cut request", client, nil)
		}
		r.counts("refusals", r.guard.metrics.refusals.WithLabelValues("requests", "Truncated"), 4)
		r.logs("message 1: Truncated offset ")
	}
}

func mustPackWords(t *testing.T, words []byte) []byte {
	t.Helper()
	b, err := capvet.AppendPackedWords(nil, words)
	if err != nil {
		t.Fatal(err)
	}
	return b
}

func mustPack(t *testing.T, message []byte) []byte {
	t.Helper()
	b, err := capvet.AppendPackedMessage(nil, message, nil)
	if err != nil {
		t.Fatal(err)
	}
	return b
}

func TestRules(t *testing.T) {
	nullPad := []byte{0, 0, 0, 0, 2, 0, 0, 0, 10, 0, 0, 0, 0, 0, 0, 0, 0, 0, 0, 0, 0, 0, 0, 0}
	amplified := []byte{0, 0, 0, 0, 1, 0, 0, 0, 1, 0, 0, 0, 0x10, 0x80, 0, 0}
	for _, row := range []struct {
		words   []string
		message []byte
		reason  string // empty if it is accepted
	}{
		{nil, shared, ""},
		{[]string{"--exclusive"}, shared, "Overlap"},
		{[]string{"--exclusive"}, large(50), ""},
		{nil, nullPad, "NullPad"},
		{[]string{"--allow-nonstrict"}, nullPad, ""},
		{nil, amplified, "WordLimit"},
		{[]string{"--allow-amplified"}, amplified, ""},
		{[]string{"--size", "4"}, shared, ""},
		{[]string{"--size", "3"}, shared, "TooLarge"},
		{[]string{"--words", "3"}, shared, "WordLimit"},
		{[]string{"--depth", "1"}, shared, "DepthLimit"},
		{[]string{"--direction", "replies"}, cycle, ""},
		{[]string{"--direction", "requests"}, cycle, "DepthLimit"},
		{[]string{"--direction", "none"}, cycle, ""},
	} {
		r := newRig(t, row.words...)
		client, server := r.pair()
		sends(client, row.message)
		if row.reason == "" {
			gets(t, "accepted", server, row.message)
			half0(client).CloseWrite()
			half0(server).CloseWrite()
		}
		ends(t, "the end", server, nil)
		ends(t, "the end", client, nil)
		if row.reason != "" {
			r.counts(row.reason, r.guard.metrics.refusals.WithLabelValues("requests", row.reason), 1)
		}
	}
}

// observed returns how many times a histogram has.
func observed(t *testing.T, o prometheus.Observer) uint64 {
	var m dto.Metric
	if err := o.(prometheus.Metric).Write(&m); err != nil {
		t.Error(err)
	}
	return m.GetHistogram().GetSampleCount()
}

func TestPackedSides(t *testing.T) {
	messages := [][]byte{shared, large(20000), empty, large(200000), shared}
	for _, words := range [][]string{{"--listen-packed"}, {"--connect-packed"}, {"--listen-packed", "--connect-packed", "--exclusive"}} {
		r := newRig(t, words...)
		if r.guard.options.limits.Exclusive {
			messages = [][]byte{large(20000), empty, large(2000)}
		}
		client, server := r.pair()
		for _, way := range []struct {
			from, to   net.Conn
			sent, come side
		}{{client, server, 0, 1}, {server, client, 1, 0}} {
			sent, want := join(messages...), join(messages...)
			if r.guard.options.packed[way.sent] {
				sent = mustPackWords(t, sent)
			}
			if r.guard.options.packed[way.come] {
				want = nil
				for _, message := range messages {
					want = append(want, mustPack(t, message)...)
				}
			}
			go sends(way.from, sent)
			gets(t, "messages", way.to, want)
		}
		for _, d := range []direction{requests, replies} {
			if n := observed(t, r.guard.metrics.directions[d].vetSeconds); n == 0 {
				t.Errorf("no times of %v", d)
			}
		}
		if r.guard.options.packed[0] {
			sends(client, mustPackWords(t, cycle))
		} else {
			sends(client, cycle)
		}
		ends(t, "a circle", server, nil)
		ends(t, "a circle, back", client, nil)
		r.logs("requests message ", ": refused DepthLimit at 0:0 pointers 65 offset ", " path "+strings.Repeat("/p0", 64))
	}
}

// A message that comes a byte at a time ends at its time. (With all of its bytes it would take longer than this test waits)
func TestTimeoutsOfMessages(t *testing.T) {
	r := newRig(t, "--message-timeout", "300ms")
	slow, server := r.pair()
	message := large(5000)
	go func() {
		for i := range message {
			if _, err := slow.Write(message[i : i+1]); err != nil {
				return
			}
			time.Sleep(50 * time.Millisecond)
		}
	}()
	ends(t, "a slow message", server, nil)
	r.logs("requests message 0: message_timeout offset 0")
}

// An idle connection ends at its time, and not before. Replies alone keep one. The machine may stall for as long as a connection may be
// idle, and so there are tries with more time.
func TestTimeoutsOfIdleConnections(t *testing.T) {
	for _, limit := range []time.Duration{900 * time.Millisecond, 4 * time.Second, 30 * time.Second} {
		if idleBesideBusy(t, limit) {
			return
		}
		t.Log("a busy connection has ended, with a limit of", limit)
	}
	t.Error("busy connections end")
}

// idleBesideBusy reports whether a connection with many replies is kept until idle ones beside it have ended.
func idleBesideBusy(t *testing.T, limit time.Duration) bool {
	begin := time.Now()
	r := newRig(t, "--idle-timeout", limit.String())
	idle, idleServer := r.pair()
	busy, busyServer := r.pair()
	over, sent := make(chan bool), make(chan int)
	go func() {
		for n := 0; ; n++ {
			select {
			case <-over:
				sent <- n
				return
			default:
			}
			sends(busyServer, empty)
			time.Sleep(limit / 20)
		}
	}()
	got := make(chan int)
	go func() {
		all, _ := io.ReadAll(busy)
		got <- len(all)
	}()
	ends(t, "an idle client", idle, nil)
	ends(t, "an idle server", idleServer, nil)
	if took := time.Since(begin); took < limit {
		t.Error(took, "of", limit)
	}
	r.logs(idle.LocalAddr().String(), "idle_timeout")
	close(over)
	n := <-sent
	busyServer.Close()
	return <-got == n*len(empty)
}

// A peer that reads nothing is idle too, though the other one sends.
func TestStalledReaders(t *testing.T) {
	r := newRig(t, "--idle-timeout", "500ms")
	client, server := r.pair()
	go func() {
		for {
			if _, err := client.Write(bytes.Repeat(empty, 10000)); err != nil {
				return
			}
		}
	}()
	r.counts("connections that ended", r.guard.metrics.ended.WithLabelValues("idle_timeout"), 1)
	_ = server
}

func TestLimitsOfConnections(t *testing.T) {
	r := newRig(t, "--max-connections", "3", "--max-per-peer", "2")
	first, firstServer := r.pair()
	second, secondServer := r.pair()
	ends(t, "a third connection of a peer", r.dial(), nil)
	r.counts("rejected", r.guard.metrics.rejected.WithLabelValues("max_per_peer"), 1)
	other, err := (&net.Dialer{LocalAddr: &net.TCPAddr{IP: net.IPv4(127, 0, 0, 2)}}).Dial("tcp", r.listener.Addr().String())
	if err != nil {
		t.Fatal(err)
	}
	defer other.Close()
	otherServer := r.accept()
	sends(other, empty)
	gets(t, "another peer", otherServer, empty)
	ends(t, "a fourth connection", r.dial(), nil)
	r.counts("rejected", r.guard.metrics.rejected.WithLabelValues("max_connections"), 1)
	sends(second, empty)
	gets(t, "a connection that is served", secondServer, empty)
	first.Close()
	firstServer.Close()
	until(t, "a place is free", func() bool { return r.guard.open.Load() == 2 })
	again, server := r.pair()
	sends(again, empty)
	gets(t, "a later connection", server, empty)
}

// Claims take no memory, and messages no more than the budget.
func TestMemory(t *testing.T) {
	r := newSmallRig(t, 2097152)
	claim := []byte{0, 0, 0, 0, 0, 0, 128, 0}
	for i := 0; i < 50; i++ {
		client, _ := r.pair()
		sends(client, claim)
	}
	until(t, "the claims have come", func() bool { return r.guard.open.Load() == 50 })
	if used := r.guard.memory.used.Load(); used != 0 {
		t.Errorf("%d bytes are in use for claims", used)
	}
	client, server := r.pair()
	go sends(client, large(400000))
	ends(t, "a message above the budget", server, nil)
	r.logs("requests message 0: memory offset 0")
	client, server = r.pair()
	go sends(client, large(100000))
	gets(t, "a message within the budget", server, large(100000))
	until(t, "an idle connection gives its memory back", func() bool { return r.guard.memory.used.Load() == 0 })
	sends(client, empty)
	gets(t, "a message afterwards", server, empty)
}

// Packed messages, and those that are packed, are within the budget too.
func TestMemoryOfPackedMessages(t *testing.T) {
	for _, words := range [][]string{{"--listen-packed"}, {"--connect-packed"}, {"--listen-packed", "--connect-packed"}} {
		r := newSmallRig(t, 3000000, words...)
		isPacked := r.guard.options.packed[0]
		send := func(conn net.Conn, message []byte) {
			if isPacked {
				message = mustPack(t, message)
			}
			go sends(conn, message)
		}
		client, server := r.pair()
		send(client, large(500000))
		if got, _ := io.ReadAll(server); len(got) > 0 {
			t.Errorf("%v: %d bytes of a message above the budget", words, len(got))
		}
		r.logs("requests message 0: memory offset 0")
		until(t, "nothing of the budget is in use", func() bool { return r.guard.memory.used.Load() == 0 })
		client, server = r.pair()
		send(client, large(100000))
		want := large(100000)
		if r.guard.options.packed[1] {
			want = mustPack(t, want)
		}
		gets(t, "a message within the budget", server, want)
	}
	// (2 packed bytes claim 2 KiB of zeros, and 32 KiB of them a message of 64 MiB)
	r := newSmallRig(t, 3000000, "--listen-packed")
	client, server := r.pair()
	zeros := append([]byte{0x40, 0x80, 0, 0}, bytes.Repeat([]byte{0, 255}, 32768)...)
	go sends(client, zeros)
	ends(t, "a message of zeros", server, nil)
	r.logs("requests message 0: memory offset 0")
}

func TestWithoutAServer(t *testing.T) {
	r := newRig(t)
	r.backend.Close()
	ends(t, "a client without a server", r.dial(), nil)
	r.counts("rejected", r.guard.metrics.rejected.WithLabelValues("connect"), 1)
	r.logs("connect: ", "refused")
}

// A reset ends the connection in both directions.
func TestResets(t *testing.T) {
	r := newRig(t)
	for i := 0; i < 2; i++ {
		client, server := r.pair()
		ends2 := [2]net.Conn{client, server}
		sends(client, empty)
		gets(t, "a request", server, empty)
		ends2[i].(*net.TCPConn).SetLinger(0)
		ends2[i].Close()
		ends(t, "the end after a reset", ends2[1-i], nil)
	}
}

func TestDrain(t *testing.T) {
	r := newRig(t)
	client, server := r.pair()
	sends(client, empty)
	gets(t, "a request", server, empty)
	r.listener.Close()
	now, drained := make(chan struct{}), make(chan bool)
	go func() {
		r.guard.drain(time.Hour, now)
		drained <- true
	}()
	until(t, "it drains", r.guard.isDraining.Load)
	sends(client, empty)
	gets(t, "a request while it drains", server, empty)
	close(now)
	<-drained
	ends(t, "a connection that is cut", client, nil)

	r = newRig(t)
	client, server = r.pair()
	sends(client, empty)
	gets(t, "a request", server, empty)
	r.listener.Close()
	begin := time.Now()
	r.guard.drain(400*time.Millisecond, nil)
	if took := time.Since(begin); took < 400*time.Millisecond {
		t.Error(took)
	}
	ends(t, "a connection that is left", client, nil)
}
