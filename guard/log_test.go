package main

import (
	"errors"
	"io"
	"os"
	"regexp"
	"strconv"
	"strings"
	"testing"
	"time"
	"unicode/utf8"
)

// A log that nobody reads holds no connection and no end. Lines that are too many are counted.
func TestAStalledLog(t *testing.T) {
	reader, writer, err := os.Pipe()
	if err != nil {
		t.Fatal(err)
	}
	defer reader.Close()
	defer writer.Close()
	l := newLogger(writer, false, 0)
	begin := time.Now()
	const lines = 5000
	for i := 0; i < lines; i++ {
		l.reject("greeting", "peer", io.ErrUnexpectedEOF)
	}
	l.close()
	// (without a bound it would wait until the reader comes back, and that is below)
	if took := time.Since(begin); took < lastWords || took > testPatience {
		t.Error(took)
	}
	// (some lines are in the pipe, unless none was written before all had come)
	dropped := l.dropped[queueFull].Load()
	if dropped < lines-queued-2000 || dropped > lines-queued {
		t.Error(dropped, "lines are dropped")
	}
	// (a reader that comes back gets all others, and the number)
	go func() {
		<-l.ended
		writer.Close()
	}()
	text, err := io.ReadAll(reader)
	if err != nil {
		t.Fatal(err)
	}
	if n := strings.Count(string(text), " peer greeting: unexpected EOF\n"); n != lines-int(dropped) {
		t.Error(n, dropped)
	}
	if !strings.Contains(string(text), "dropped: ") {
		t.Error("no number of lines")
	}
}

// A reader of the log that has ended is no fault.
func TestALogWithoutAReader(t *testing.T) {
	reader, writer, err := os.Pipe()
	if err != nil {
		t.Fatal(err)
	}
	defer writer.Close()
	reader.Close()
	l := newLogger(writer, true, 0)
	l.note("listening", "a", nil)
	l.close()
}

// Lines about connections have a rate. Those about the guard itself are all written.
func TestTheRateOfTheLog(t *testing.T) {
	out := &output{}
	l := newLogger(out, true, 5)
	const lines = 400
	begin := time.Now()
	for i := 0; i < lines; i++ {
		l.reject("greeting", "peer", io.EOF)
		l.note("certificates", "", nil)
	}
	// (a second's worth comes at once, and five with each second that a busy machine takes)
	most := 6 + int(5*time.Since(begin).Seconds())
	l.close()
	<-l.ended
	text := out.String()
	dropped := l.dropped[overRate].Load()
	if n := strings.Count(text, "greeting"); n < 5 || n > most || int64(lines-n) != dropped {
		t.Error(n, most, dropped)
	}
	var said int64
	for _, found := range regexp.MustCompile(`"event":"dropped",.*?(\d+) lines of the log`).FindAllStringSubmatch(text, -1) {
		n, _ := strconv.ParseInt(found[1], 10, 64)
		said += n
	}
	if strings.Count(text, `"event":"certificates"`) != lines || said != dropped {
		t.Error(said, dropped, text)
	}
}

func TestBuckets(t *testing.T) {
	b := bucket{rate: 100}
	if !b.isFull() || b.spend(50) > 0 || !b.allow(40) {
		t.Error(b.full, now())
	}
	// (what takes hours, so that no pause of this test counts)
	const hour = 100 * 3600
	for i := 0; i < 2; i++ {
		begin, rest := now(), time.Duration(0)
		if b.full > begin {
			rest = b.full - begin
		}
		wait := b.spend(hour)
		if most := rest + time.Hour - burst; wait > most || wait < most-(now()-begin) {
			t.Error(wait, most)
		}
		if b.isFull() || b.allow(1) {
			t.Error(b.full, now())
		}
	}
	var none bucket
	if !none.allow(1<<40) || none.spend(1<<40) > 0 {
		t.Error("no rate is a limit")
	}
}

// No text of a peer is a second line, and no name of a peer is two words.
func TestForgedLines(t *testing.T) {
	forged := "p\ncapvet-guard: 2026-11-29T00:00:00Z 198.51.100.1:1 connect: \x1b[31mforged\u202e\xff"
	for _, r := range []record{{Event: "greeting", Peer: forged}, {Event: "greeting", Text: forged}, {Event: "listening", Address: forged}} {
		line := r.line()
		if strings.ContainsAny(line, "\n\x1b\u202e") || !utf8.ValidString(line) || !strings.Contains(line, `p\ncapvet`) {
			t.Errorf("%q", line)
		}
	}
	if text := textOf(errors.New(strings.Repeat("ä", 1000))); len(text) > maxText+3 || !utf8.ValidString(text) || !strings.HasSuffix(text, "ä...") {
		t.Error(text)
	}
	if line := (record{Event: "greeting", Peer: "a b"}).line(); !strings.Contains(line, ` "a b" greeting`) {
		t.Error(line)
	}
	for _, name := range []string{"192.0.2.1:3", "[2001:db8::1%eth0]:4", "/run/ä"} {
		if word(name) != name {
			t.Error(name)
		}
	}
}
