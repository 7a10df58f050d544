package capvet_test

import (
	"bytes"
	"errors"
	"io"
	"net"
	"runtime"
	"runtime/debug"
	"strings"
	"testing"
	"testing/iotest"
	"time"

	"capvet.invalid/capvet"
)

// forms are the scanners, each with what makes the bytes of a message for it.
var forms = []struct {
	name    string
	scanner func(io.Reader, *capvet.Limits) *capvet.Scanner
	encode  func(message []byte) []byte
}{
	{"plain", capvet.NewScanner, func(message []byte) []byte { return message }},
	{"packed", capvet.NewPackedScanner, func(message []byte) []byte { return packedWords(message) }},
}

// next scans the next message, accepted or refused, and returns its bytes and its refusal. ok is false at the end of the scan.
func next(s *capvet.Scanner) (b []byte, refusal *capvet.Refusal, ok bool) {
	if s.Scan() {
		return s.Message().Bytes(), nil, true
	}
	if errors.As(s.Err(), &refusal) {
		return refusal.Unvetted(), refusal, true
	}
	return nil, nil, false
}

// scan returns the frames and refusals of a stream, a line for each, and how the scan ended.
func scan(s *capvet.Scanner) (lines string, err error) {
	var all strings.Builder
	for _, refusal, ok := next(s); ok; _, refusal, ok = next(s) {
		line := s.Message().Report().String()
		if refusal != nil {
			line = refusal.Line()
		}
		all.WriteString(line + "\n")
	}
	return all.String(), s.Err()
}

// strict is a reader that fails a test if more than a number of bytes are read.
type strict struct {
	t    *testing.T
	r    io.Reader
	left int
}

func (s *strict) Read(b []byte) (int, error) {
	n, err := s.r.Read(b)
	if s.left -= len(b); s.left < 0 {
		s.t.Errorf("%d bytes more than the frame are asked for", -s.left)
	}
	s.left += len(b) - n
	return n, err
}

func TestScannerReadsOneFrame(t *testing.T) {
	for _, message := range [][]byte{null, cycle, sample("contacts.bin"), sample("contacts-many-segments.bin"), many(512)} {
		stream := bytes.NewReader(join(message, null, message))
		for _, r := range []io.Reader{stream, iotest.OneByteReader(stream), iotest.HalfReader(stream)} {
			stream.Seek(0, io.SeekStart)
			s := capvet.NewScanner(&strict{t, r, len(message)}, nil)
			b, refusal, ok := next(s)
			if !ok || !bytes.Equal(b, message) || s.Number() != 0 {
				t.Fatal(s.Err(), len(b))
			}
			if (refusal == nil) != bytes.Equal(s.Message().Bytes(), message) || (refusal != nil) != (s.Message().Bytes() == nil) {
				t.Fatal(refusal)
			}
		}
	}
}

// A buffer that is longer than the next frame is no reason to read more than the frame.
func TestScannerReadsNoMoreWithALongBuffer(t *testing.T) {
	messages := [][]byte{large(1000), large(999), large(998), null, cycle, large(997)}
	r := &strict{t, bytes.NewReader(join(messages...)), 0}
	s := capvet.NewScanner(r, nil)
	for i, message := range messages {
		r.left += len(message)
		if b, _, ok := next(s); !ok || !bytes.Equal(b, message) {
			t.Fatal(i, s.Err(), len(b))
		}
	}
}

// A table that claims too much ends the scan after 8 bytes, and one that claims much has no memory before its words come.
func TestScannerIsBounded(t *testing.T) {
	claim := []byte{0, 0, 0, 0, 0, 0, 128, 0}
	s := capvet.NewScanner(&strict{t, bytes.NewReader(join(claim, null)), 8}, with(capvet.Limits{MessageWords: 1<<23 - 1}))
	_, err := scan(s)
	same(t, "a claim", &capvet.FrameError{Reason: capvet.ReasonTooLarge, Words: 1 << 23}, err)
	allocated := testing.Benchmark(func(b *testing.B) {
		for i := 0; i < b.N; i++ {
			_, err := scan(capvet.NewScanner(bytes.NewReader(join(claim, null)), nil))
			same(t, "a cut claim", &capvet.FrameError{Reason: capvet.ReasonTruncated, Required: 1<<26 + 8}, err)
		}
	}).AllocedBytesPerOp()
	if allocated > 256<<10 {
		t.Error(allocated, "bytes are allocated")
	}
}

// large returns a message of a number of words: the root is a list of all others.
func large(words int) []byte {
	b := make([]byte, 8+8*words)
	b[4], b[5], b[6] = byte(words), byte(words>>8), byte(words>>16)
	count := uint32(words-1)<<3 | 5
	b[8], b[12], b[13], b[14], b[15] = 1, byte(count), byte(count>>8), byte(count>>16), byte(count>>24)
	for i := 16; i < len(b); i++ {
		b[i] = byte(i * i >> 7)
	}
	return b
}

func TestScannersGrow(t *testing.T) {
	messages := [][]byte{null, large(100000), null, large(1 << 20), large(9000)}
	stream := join(messages...)
	packed := packedWords(stream)
	for _, s := range []*capvet.Scanner{
		capvet.NewScanner(bytes.NewReader(stream), nil),
		capvet.NewScanner(iotest.HalfReader(bytes.NewReader(stream)), nil),
		capvet.NewPackedScanner(bytes.NewReader(packed), nil),
		capvet.NewPackedScanner(iotest.HalfReader(bytes.NewReader(packed)), exclusive(nil)),
	} {
		for i, message := range messages {
			if !s.Scan() || s.Number() != i || !bytes.Equal(s.Message().Bytes(), message) || s.Message().Report().Length != len(message) {
				t.Fatal(i, s.Err())
			}
		}
		if s.Scan() || s.Err() != nil || s.Number() != len(messages) || s.Message().Bytes() != nil {
			t.Fatal(s.Err())
		}
	}
}

// heap returns the bytes that are in use after all that can be freed is freed. (A pool is emptied by two cycles.)
func heap() uint64 {
	for i := 0; i < 3; i++ {
		runtime.GC()
	}
	var memory runtime.MemStats
	runtime.ReadMemStats(&memory)
	return memory.HeapAlloc
}

// patience is how long a test waits for what has to come. Only a hang takes longer, however busy the machine is.
const patience = 2 * time.Minute

// comesDown waits until a MiB at most is in use more than before. It returns how much is, and whether it came to that. (A goroutine may
// not have run yet that gives a buffer back)
func comesDown(before uint64) (used int64, ok bool) {
	for end := time.Now().Add(patience); ; time.Sleep(20 * time.Millisecond) {
		if used = int64(heap() - before); used <= 1<<20 || time.Now().After(end) {
			return used, used <= 1<<20
		}
	}
}

// A scanner that waits for its next message doesn't hold the buffer of a large one.
func TestIdleScannersAreSmall(t *testing.T) {
	message := large(2 << 20)
	for _, form := range forms {
		r, w := io.Pipe()
		before, s := heap(), form.scanner(r, nil)
		go w.Write(form.encode(message))
		if !s.Scan() || !bytes.Equal(s.Message().Bytes(), message) {
			t.Fatal(s.Err())
		}
		if used := int64(heap() - before); used < int64(len(message)) {
			t.Errorf("%s: %d bytes are in use for a message of %d", form.name, used, len(message))
		}
		ended := make(chan bool)
		go func() { ended <- s.Scan() }()
		if used, ok := comesDown(before); !ok {
			t.Errorf("%s: %d bytes are in use by an idle scanner", form.name, used)
		}
		runtime.KeepAlive(message)
		w.Close()
		if <-ended {
			t.Error("a message after the end")
		}
	}
}

// Large messages one after the other share a buffer, unless the garbage collector runs between them.
func TestScannersKeepTheirBuffer(t *testing.T) {
	defer debug.SetGCPercent(debug.SetGCPercent(-1))
	// (each processor has a part of a pool that the others don't take from)
	defer runtime.GOMAXPROCS(runtime.GOMAXPROCS(1))
	message, count := large(1<<16), 160
	for _, form := range forms {
		stream := bytes.Repeat(form.encode(message), count)
		var before, after runtime.MemStats
		runtime.ReadMemStats(&before)
		s := form.scanner(bytes.NewReader(stream), nil)
		for s.Scan() {
		}
		runtime.ReadMemStats(&after)
		// (without a pool it would be twice as much; the race detector lets a pool lose a part of what it gets)
		if allocated := int(after.TotalAlloc - before.TotalAlloc); s.Number() != count || allocated > count*len(message)*3/2 {
			t.Errorf("%s: %d bytes are allocated for %d messages, %v", form.name, allocated, s.Number(), s.Err())
		}
	}
}

// A message is where the bytes before it end, refused and cut ones too.
func TestOffsets(t *testing.T) {
	messages := [][]byte{sample("contacts.bin"), cycle, null, large(30000), many(512), nullPad, null}
	for _, form := range forms {
		var stream []byte
		var starts []int64
		for _, message := range messages {
			starts = append(starts, int64(len(stream)))
			stream = append(stream, form.encode(message)...)
		}
		ends := append(starts[1:len(starts):len(starts)], int64(len(stream)))
		for _, cut := range []int{0, 1} {
			s := form.scanner(iotest.HalfReader(bytes.NewReader(stream[:len(stream)-cut])), nil)
			if s.Offset() != 0 {
				t.Error(s.Offset())
			}
			for _, refusal, ok := next(s); ok; _, refusal, ok = next(s) {
				if refusal != nil && (refusal.Number != s.Number() || refusal.Offset != s.Offset()) {
					t.Errorf("%s: refusal %d is at %d", form.name, refusal.Number, refusal.Offset)
				}
				if s.Offset() != starts[s.Number()] {
					t.Errorf("%s: message %d is at %d and not at %d", form.name, s.Number(), s.Offset(), starts[s.Number()])
				}
			}
			var frame *capvet.FrameError
			if errors.As(s.Err(), &frame) && (frame.Number != s.Number() || frame.Offset != s.Offset()) {
				t.Errorf("%s: the cut message %d is at %d", form.name, frame.Number, frame.Offset)
			}
			if s.Number() != len(messages)-cut || s.Offset() != ends[len(ends)-1-cut] && s.Offset() != starts[len(starts)-1] {
				t.Errorf("%s: the end of %d messages is at %d", form.name, s.Number(), s.Offset())
			}
		}
	}
}

// Scanners ask before their buffers grow, and give back what they no longer use.
func TestBoundedScanners(t *testing.T) {
	messages := [][]byte{null, large(100000), null, large(9000), large(100000)}
	for _, form := range forms {
		for _, most := range []int{0, 100, 400000, 1 << 21} {
			var stream []byte
			for _, message := range messages {
				stream = append(stream, form.encode(message)...)
			}
			used, peak := 0, 0
			s := form.scanner(bytes.NewReader(stream), nil)
			s.SetBound(func(n int) bool {
				if used+n > most {
					return false
				}
				if used += n; used > peak {
					peak = used
				}
				return true
			})
			for s.Scan() {
				if used < len(s.Message().Bytes()) || !bytes.Equal(s.Message().Bytes(), messages[s.Number()]) {
					t.Errorf("%s: message %d, %d bytes in use", form.name, s.Number(), used)
				}
			}
			want, err := len(messages), error(nil)
			if most < 1<<21 {
				want, err = 0, capvet.ErrNoSpace
				if most > 0 {
					want = 1
				}
			}
			if s.Number() != want || s.Err() != err || used != 0 || peak > most {
				t.Errorf("%s, at most %d: %d messages, %v, %d in use, %d at one time", form.name, most, s.Number(), s.Err(), used, peak)
			}
		}
	}
}

// insider is a reader of one byte at a time that notes for each whether its scanner is inside a message.
type insider struct {
	r       io.Reader
	scanner *capvet.Scanner
	noted   []bool
}

func (i *insider) Read(b []byte) (int, error) {
	i.noted = append(i.noted, i.scanner.Inside())
	return i.r.Read(b[:1])
}

func TestInside(t *testing.T) {
	for _, form := range forms {
		encoded := form.encode(sample("shared.bin"))
		r := &insider{r: bytes.NewReader(join(encoded, encoded))}
		r.scanner = form.scanner(r, nil)
		for r.scanner.Scan() {
		}
		if r.scanner.Number() != 2 || r.scanner.Err() != nil {
			t.Fatal(r.scanner.Number(), r.scanner.Err())
		}
		for at, inside := range r.noted {
			if inside != (at%len(encoded) != 0) {
				t.Errorf("%s: before byte %d it is inside: %v", form.name, at, inside)
			}
		}
		if len(r.noted) != 2*len(encoded)+1 {
			t.Error(len(r.noted))
		}
	}
}

// However the bytes of a stream come, and whatever the reader returns with the last of them, the messages are the same.
func TestScannersOverReaders(t *testing.T) {
	stream := join(sample("stream-of-four.bin"), cycle, sample("shared.bin"), nullPad, many(512), null)
	want, err := scan(capvet.NewScanner(bytes.NewReader(stream), nil))
	if err != nil || strings.Count(want, "accepted") != 6 || strings.Count(want, "refused") != 3 {
		t.Fatal(want, err)
	}
	packed := packedWords(stream)
	for i, form := range []func(io.Reader) io.Reader{iotest.OneByteReader, iotest.HalfReader, iotest.DataErrReader} {
		lines, err := scan(capvet.NewScanner(form(bytes.NewReader(stream)), nil))
		if lines != want || err != nil {
			t.Error(i, lines, err)
		}
		lines, err = scan(capvet.NewPackedScanner(form(bytes.NewReader(packed)), nil))
		if lines != want || err != nil {
			t.Error(i, lines, err)
		}
	}
}

func TestScannersEnd(t *testing.T) {
	broken := errors.New("broken")
	contacts, packed := sample("contacts.bin"), sample("contacts.packed")
	for _, row := range []struct {
		what  string
		s     *capvet.Scanner
		count int
		want  error
	}{
		{"nothing", capvet.NewScanner(strings.NewReader(""), nil), 0, nil},
		{"nothing, packed", capvet.NewPackedScanner(strings.NewReader(""), nil), 0, nil},
		{"an error", capvet.NewScanner(iotest.ErrReader(broken), nil), 0, broken},
		{"an error, packed", capvet.NewPackedScanner(iotest.ErrReader(broken), nil), 0, broken},
		{"an error after a message", capvet.NewScanner(io.MultiReader(bytes.NewReader(contacts), iotest.ErrReader(broken)),
			nil), 1, broken},
		{"an error in a message", capvet.NewScanner(io.MultiReader(bytes.NewReader(contacts[:99]), iotest.ErrReader(broken)),
			nil), 0, broken},
		{"an error after a packed message", capvet.NewPackedScanner(io.MultiReader(bytes.NewReader(packed), iotest.ErrReader(broken)),
			nil), 1, broken},
		{"no bytes and no error", capvet.NewScanner(empty{}, nil), 0, io.ErrNoProgress},
		{"a part of a packed message", capvet.NewPackedScanner(bytes.NewReader(packed[:99]), nil), 0,
			&capvet.FrameError{Reason: capvet.ReasonTruncated}},
		{"a large packed message", capvet.NewPackedScanner(bytes.NewReader(packed), with(capvet.Limits{MessageWords: 391})), 0,
			&capvet.FrameError{Reason: capvet.ReasonTooLarge, Words: 392}},
		{"513 segments", capvet.NewPackedScanner(bytes.NewReader(packedWords(many(513))), nil), 0,
			&capvet.FrameError{Reason: capvet.ReasonTooManySegments, Segments: 513}},
		{"a depth above 256", capvet.NewScanner(bytes.NewReader(null), with(capvet.Limits{Depth: 257})), 0,
			&capvet.LimitsError{Limits: *with(capvet.Limits{Depth: 257})}},
		{"a depth above 256, packed", capvet.NewPackedScanner(bytes.NewReader(packed), with(capvet.Limits{Depth: 257})), 0,
			&capvet.LimitsError{Limits: *with(capvet.Limits{Depth: 257})}},
	} {
		for row.s.Scan() {
		}
		same(t, row.what, row.want, row.s.Err())
		if row.s.Scan() || row.s.Number() != row.count || row.s.Message().Bytes() != nil {
			t.Errorf("%s: %d messages", row.what, row.s.Number())
		}
	}
}

// empty is a reader without bytes and without an end.
type empty struct{}

func (empty) Read([]byte) (int, error) { return 0, nil }

func TestExclusiveScanner(t *testing.T) {
	s := capvet.NewScanner(bytes.NewReader(join(sample("shared.bin"), null)), exclusive(nil))
	lines, err := scan(s)
	if lines != "refused Overlap at 0:2 pointers 3\naccepted charge 0 depth 0 pointers 1 caps 0\n" || err != nil {
		t.Error(lines, err)
	}
}

// A Scanner over small messages allocates nothing for each of them.
func TestScannersAllocateNothing(t *testing.T) {
	const count = 1000
	for _, form := range forms {
		stream := bytes.Repeat(form.encode(sample("shared.bin")), count)
		allocated := testing.AllocsPerRun(5, func() {
			s := form.scanner(bytes.NewReader(stream), nil)
			for s.Scan() {
			}
			if s.Number() != count || s.Err() != nil {
				t.Error(s.Number(), s.Err())
			}
		})
		// (the Scanner, its reader and its buffers)
		if allocated > 10 {
			t.Errorf("%s: %v allocations for %d messages", form.name, allocated, count)
		}
	}
}

// A message that came over a socket is there before its sender sends the next one: the sender waits for a reply to each.
func TestScannersOverASocket(t *testing.T) {
	for _, form := range forms {
		listener, err := net.Listen("tcp", "127.0.0.1:0")
		if err != nil {
			t.Fatal(err)
		}
		defer listener.Close()
		messages := [][]byte{sample("contacts.bin"), cycle, null, large(30000), many(512), null}
		sent := make(chan error, 1)
		go func() {
			sent <- send(listener.Addr().String(), messages, form.encode)
		}()
		peer, err := listener.Accept()
		if err != nil {
			t.Fatal(err)
		}
		defer peer.Close()
		s := form.scanner(peer, nil)
		for b, _, ok := next(s); ok; b, _, ok = next(s) {
			if !bytes.Equal(b, messages[s.Number()]) {
				t.Fatal(s.Number())
			}
			peer.Write([]byte{byte(s.Number())})
		}
		if s.Err() != nil || s.Number() != len(messages) {
			t.Error(s.Err(), s.Number())
		}
		if err := <-sent; err != nil {
			t.Error(err)
		}
	}
}

// send connects and sends messages, each after the reply to the one before.
func send(address string, messages [][]byte, encode func([]byte) []byte) error {
	conn, err := net.Dial("tcp", address)
	if err != nil {
		return err
	}
	defer conn.Close()
	conn.SetDeadline(time.Now().Add(patience))
	reply := make([]byte, 1)
	for number, message := range messages {
		if _, err := conn.Write(encode(message)); err != nil {
			return err
		}
		if _, err := io.ReadFull(conn, reply); err != nil || int(reply[0]) != number {
			return errors.New("no reply to a message")
		}
	}
	return nil
}

// pair returns both ends of a connection of this machine.
func pair(t *testing.T) (here, there net.Conn) {
	listener, err := net.Listen("tcp", "127.0.0.1:0")
	if err != nil {
		t.Fatal(err)
	}
	defer listener.Close()
	if there, err = net.Dial("tcp", listener.Addr().String()); err != nil {
		t.Fatal(err)
	}
	if here, err = listener.Accept(); err != nil {
		t.Fatal(err)
	}
	return here, there
}

// A message that came over a socket is there while a part of the next one has come, wherever that one is cut.
func TestAMessageAndAPart(t *testing.T) {
	for _, form := range forms {
		first, next := sample("shared.bin"), sample("contacts.bin")
		encoded := form.encode(next)
		for cut := 0; cut < len(encoded); cut += 1 + len(encoded)/50 {
			here, there := pair(t)
			s := form.scanner(here, nil)
			if _, err := there.Write(join(form.encode(first), encoded[:cut])); err != nil {
				t.Fatal(err)
			}
			here.SetReadDeadline(time.Now().Add(patience))
			if !s.Scan() || !bytes.Equal(s.Message().Bytes(), first) {
				t.Fatalf("%s: the message before %d bytes of the next one: %v", form.name, cut, s.Err())
			}
			there.Write(encoded[cut:])
			there.Close()
			if !s.Scan() || !bytes.Equal(s.Message().Bytes(), next) || s.Scan() || s.Err() != nil {
				t.Fatal(s.Err())
			}
			here.Close()
		}
	}
}
