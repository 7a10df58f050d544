package main

import (
	"bytes"
	"io"
	"net"
	"strings"
	"testing"
	"time"
)

// linesAbout returns the lines of the log about messages, without time and peer.
func (r *rig) linesAbout() []string {
	var found []string
	for _, line := range strings.Split(r.log.String(), "\n") {
		if at := strings.Index(line, " message "); at >= 0 {
			found = append(found, line[strings.LastIndex(line[:at], " "):])
		}
	}
	return found
}

// A dry run passes everything on, and has the lines of a run that refuses: the first one of each connection is the same.
func TestDryRun(t *testing.T) {
	tooMany, tooLarge := []byte{0, 2, 0, 0, 0, 0, 0, 0}, []byte{0, 0, 0, 0, 1, 0, 128, 0}
	streams := [][]byte{
		join(empty, cycle, shared), join(cycle, cycle, large(3000), pastTheEnd(shared, 24), empty), join(shared, empty[:9]),
		join(empty, tooMany, shared), join(shared, shared, tooLarge, bytes.Repeat(empty, 9000)), join(empty, shared), cycle[:1],
		join(bytes.Repeat(empty, 5000), cycle, bytes.Repeat(shared, 5000), pastTheEnd(shared, 8)),
	}
	dry, real := newRig(t, "--dry-run"), newRig(t)
	for i, stream := range streams {
		before := len(dry.linesAbout())
		for _, r := range []*rig{real, dry} {
			client, server := r.pair()
			go func() {
				client.Write(stream)
				half0(client).CloseWrite()
			}()
			got, err := io.ReadAll(server)
			if r == dry && (err != nil || !bytes.Equal(got, stream)) {
				t.Errorf("stream %d: %d bytes of %d arrived, %v", i, len(got), len(stream), err)
			}
			server.Close()
			client.Close()
			until(t, "the connection is over", func() bool { return r.guard.open.Load() == 0 })
		}
		refused := real.linesAbout()
		if all := dry.linesAbout(); len(all) > before && (len(refused) == 0 || all[before] != refused[len(refused)-1]) || len(all) == before && i != 5 {
			t.Errorf("stream %d: %q and %q", i, all, refused)
		}
	}
	dry.counts("connections that ended", dry.guard.metrics.ended.WithLabelValues("closed"), float64(len(streams)))
	dry.counts("refused messages", dry.guard.metrics.refusals.WithLabelValues("requests", "DepthLimit"), 4)
	dry.counts("refused messages", dry.guard.metrics.refusals.WithLabelValues("requests", "OutOfSegment"), 2)
	dry.counts("refused messages", dry.guard.metrics.refusals.WithLabelValues("requests", "TooLarge"), 1)
}

// Of packed messages a dry run passes on those whose frame is known.
func TestDryRunOfPackedMessages(t *testing.T) {
	for _, words := range [][]string{{"--listen-packed"}, {"--connect-packed"}, {"--listen-packed", "--connect-packed"}} {
		r := newRig(t, append(words, "--dry-run")...)
		client, server := r.pair()
		sent, want := join(shared, cycle, empty, cycle, large(20000)), []byte(nil)
		if r.guard.options.packed[0] {
			sent = mustPackWords(t, sent)
		}
		for _, message := range [][]byte{shared, cycle, empty, cycle, large(20000)} {
			if r.guard.options.packed[1] {
				message = mustPack(t, message)
			}
			want = append(want, message...)
		}
		go sends(client, sent)
		gets(t, "all messages", server, want)
		r.logs("requests message 3: refused DepthLimit")
		if n := len(r.linesAbout()); n != 2 {
			t.Error(r.log)
		}
	}
}

// A dry run goes on where the guard would end a connection for its time or its memory.
func TestDryRunOfLimits(t *testing.T) {
	r := newSmallRig(t, 1<<20, "--dry-run", "--message-timeout", "200ms")
	client, server := r.pair()
	message := large(200000)
	sends(client, message[:100])
	r.logs("requests message 0: message_timeout offset 0")
	go sends(client, message[100:])
	gets(t, "a slow message", server, message)
	// (a busy machine could be too slow for this one too)
	r = newSmallRig(t, 1<<20, "--dry-run")
	client, server = r.pair()
	go sends(client, join(message, cycle))
	gets(t, "a message above the memory", server, join(message, cycle))
	r.logs("requests message 0: memory offset 0")
}

// A server that takes its time gets all messages before a refused one, though it sends replies all the while.
func TestASlowServerGetsAllThatWasCounted(t *testing.T) {
	if testing.Short() {
		t.Skip("it takes some seconds")
	}
	r := newRig(t)
	client, server := r.pair()
	server.(*net.TCPConn).SetReadBuffer(16 << 10)
	one := large(8192)
	messages := bytes.Repeat(one, 64)
	go sends(client, join(messages, cycle))
	go func() {
		for {
			if _, err := server.Write(empty); err != nil {
				return
			}
			time.Sleep(5 * time.Millisecond)
		}
	}()
	var got []byte
	piece := make([]byte, 64<<10)
	for {
		n, err := server.Read(piece)
		if got = append(got, piece[:n]...); err != nil {
			break
		}
		time.Sleep(40 * time.Millisecond)
	}
	if !bytes.Equal(got, messages) {
		t.Errorf("%d bytes of %d", len(got), len(messages))
	}
	r.logs("requests message 64: refused DepthLimit")
}
