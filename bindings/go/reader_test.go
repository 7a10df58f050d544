package capvet_test

import (
	"bytes"
	"errors"
	"io"
	"net"
	"os"
	"runtime"
	"sync"
	"testing"
	"testing/iotest"
	"time"

	"capvet.invalid/capvet"
)

// The bytes of accepted messages come, however those of the stream come, and none of a refused message or after it.
func TestReader(t *testing.T) {
	accepted := join(sample("contacts.bin"), null, large(30000), sample("contacts-many-segments.bin"))
	if err := iotest.TestReader(capvet.NewReader(bytes.NewReader(accepted), nil), accepted); err != nil {
		t.Error(err)
	}
	twice := &capvet.Refusal{Reason: capvet.ReasonOverlap, Position: capvet.Position{Word: 2}, Pointer: 3, Length: 40, Number: 4,
		Offset: int64(len(accepted))}
	for _, row := range []struct {
		what string
		rest []byte
		l    *capvet.Limits
		want error
	}{
		{"the end", nil, nil, nil},
		{"a refused message", join(cycle, null), nil, &capvet.Refusal{Reason: capvet.ReasonDepthLimit, Pointer: 65, Length: 16, Number: 4,
			Offset: int64(len(accepted))}},
		{"a word that is used twice", join(sample("shared.bin"), null), exclusive(nil), twice},
		{"a cut message", null[:15], nil, &capvet.FrameError{Reason: capvet.ReasonTruncated, Required: 16, Number: 4,
			Offset: int64(len(accepted))}},
		{"a broken frame", join(many(513), null), nil, &capvet.FrameError{Reason: capvet.ReasonTooManySegments, Segments: 513, Number: 4,
			Offset: int64(len(accepted))}},
	} {
		for i, form := range []func(io.Reader) io.Reader{iotest.OneByteReader, iotest.HalfReader, iotest.DataErrReader} {
			r := capvet.NewReader(form(bytes.NewReader(join(accepted, row.rest))), row.l)
			got, err := io.ReadAll(r)
			same(t, row.what, row.want, err)
			if !bytes.Equal(got, accepted) {
				t.Errorf("%s, reader %d: %d bytes of %d", row.what, i, len(got), len(accepted))
			}
			// (the end stays the end, whatever comes after it)
			n, err := r.Read(make([]byte, 100))
			if n != 0 || row.want == nil && err != io.EOF {
				t.Error(row.what, n, err)
			} else if row.want != nil {
				same(t, row.what+" again", row.want, err)
			}
		}
	}
	n, err := capvet.NewReader(iotest.ErrReader(errors.New("broken")), nil).Read(nil)
	if n != 0 || err != nil {
		t.Error("a read without space", n, err)
	}
}

// hold reads once, and returns what came within a short time.
func hold(t *testing.T, c net.Conn) ([]byte, error) {
	t.Helper()
	c.SetReadDeadline(time.Now().Add(30 * time.Millisecond))
	b := make([]byte, 1000)
	n, err := c.Read(b)
	return b[:n], err
}

// No byte of a message comes before its last one, and after a timeout a read goes on where it was.
func TestConnAfterTimeouts(t *testing.T) {
	below, there := pair(t)
	defer there.Close()
	c := capvet.NewConn(below, nil)
	defer c.Close()
	message := sample("shared.bin")
	if b, err := hold(t, c); len(b) != 0 || !errors.Is(err, os.ErrDeadlineExceeded) {
		t.Fatal(b, err)
	}
	for _, cut := range []int{1, 8, 9, 39} {
		there.Write(message[:cut])
		for i := 0; i < 2; i++ {
			if b, err := hold(t, c); len(b) != 0 || !errors.Is(err, os.ErrDeadlineExceeded) {
				t.Fatal(cut, b, err)
			}
		}
		there.Write(message[cut:])
		c.SetReadDeadline(time.Now().Add(patience))
		got := make([]byte, len(message))
		if _, err := io.ReadFull(c, got); err != nil || !bytes.Equal(got, message) {
			t.Fatal(cut, got, err)
		}
	}
	if _, err := c.Write([]byte("reply")); err != nil {
		t.Error(err)
	}
	reply := make([]byte, 5)
	if _, err := io.ReadFull(there, reply); string(reply) != "reply" {
		t.Error(reply, err)
	}
	there.Write(join(cycle, null))
	c.SetReadDeadline(time.Now().Add(patience))
	var refusal *capvet.Refusal
	if n, err := c.Read(reply); n != 0 || !errors.As(err, &refusal) || refusal.Number != 4 || refusal.Path() == "" {
		t.Error(n, err)
	}
}

// Each byte of the messages comes once, whichever goroutine reads it.
func TestConnOfGoroutines(t *testing.T) {
	below, there := pair(t)
	c := capvet.NewConn(below, nil)
	defer c.Close()
	const count = 300
	go func() {
		there.Write(bytes.Repeat(null, count))
		there.Close()
	}()
	var group sync.WaitGroup
	var lock sync.Mutex
	read := 0
	for i := 0; i < 4; i++ {
		group.Add(1)
		go func() {
			defer group.Done()
			n, err := io.Copy(io.Discard, c)
			lock.Lock()
			defer lock.Unlock()
			if read += int(n); err != nil {
				t.Error(err)
			}
		}()
	}
	group.Wait()
	if read != count*len(null) {
		t.Error(read)
	}
}

// A Reader that waits for its next message doesn't hold the buffer of a large one.
func TestIdleReadersAreSmall(t *testing.T) {
	message := large(2 << 20)
	below, w := io.Pipe()
	before, r := heap(), capvet.NewReader(below, nil)
	go w.Write(message)
	if n, err := io.CopyN(io.Discard, r, int64(len(message))); err != nil {
		t.Fatal(n, err)
	}
	ended := make(chan error)
	go func() {
		_, err := r.Read(make([]byte, 1))
		ended <- err
	}()
	if used, ok := comesDown(before); !ok {
		t.Errorf("%d bytes are in use by an idle reader", used)
	}
	runtime.KeepAlive(message)
	w.Close()
	if err := <-ended; err != io.EOF {
		t.Error(err)
	}
}

// late is a reader with a timeout before each byte.
type late struct {
	r    io.Reader
	wait bool
}

func (l *late) Read(b []byte) (int, error) {
	if l.wait = !l.wait; l.wait {
		return 0, os.ErrDeadlineExceeded
	}
	return l.r.Read(b[:1])
}

// A Scanner goes on after a timeout, and a message keeps its number and its place.
func TestScannersAfterTimeouts(t *testing.T) {
	messages := [][]byte{sample("shared.bin"), cycle, null}
	for _, form := range forms {
		var stream []byte
		var starts []int64
		for _, message := range messages {
			starts = append(starts, int64(len(stream)))
			stream = append(stream, form.encode(message)...)
		}
		s := form.scanner(&late{r: bytes.NewReader(stream)}, nil)
		timeouts := 0
		for number := 0; number < len(messages); {
			b, _, ok := next(s)
			if !ok && errors.Is(s.Err(), os.ErrDeadlineExceeded) && s.Message().Bytes() == nil {
				timeouts++
			} else if !ok || !bytes.Equal(b, messages[number]) {
				t.Fatal(form.name, number, s.Err())
			} else {
				number++
			}
			if at := s.Number(); at >= len(messages) || s.Offset() != starts[at] {
				t.Fatal(form.name, at, s.Offset())
			}
		}
		if timeouts != len(stream) {
			t.Error(form.name, timeouts)
		}
		for s.Scan() || errors.Is(s.Err(), os.ErrDeadlineExceeded) {
		}
		if s.Err() != nil || s.Number() != len(messages) {
			t.Error(form.name, s.Err(), s.Number())
		}
	}
}
