package capvet_test

import (
	"bytes"
	"encoding/binary"
	"errors"
	"flag"
	"fmt"
	"io"
	"os"
	"path/filepath"
	"reflect"
	"regexp"
	"strings"
	"testing"

	"capvet.invalid/capvet"
)

// corpus is a folder of inputs to begin with. tests/fuzz/fuzz.h says what an input is: 16 bytes of arguments, and then the bytes
// of a message or of a stream.
var corpus = flag.String("corpus", "", "a folder of inputs for fuzzing")

// input is an input with its arguments.
type input struct {
	limits *capvet.Limits
	bytes  []byte
	slack  int
	state  uint64
}

// inputOf reads the arguments of an input.
func inputOf(data []byte) (*input, bool) {
	if len(data) < 16 || len(data) > 1<<16 {
		return nil, false
	}
	in := &input{
		limits: with(capvet.Limits{
			Depth:          uint32(binary.LittleEndian.Uint16(data[2:])),
			MessageWords:   uint64(binary.LittleEndian.Uint32(data[4:])),
			Charge:         uint64(binary.LittleEndian.Uint32(data[8:])),
			AllowNonstrict: data[0]&2 != 0,
			AllowAmplified: data[0]&4 != 0,
		}),
		bytes: data[16:],
		slack: int(data[1] & 7),
		state: uint64(binary.LittleEndian.Uint32(data[12:])),
	}
	// (a walk of an amplified message would take seconds)
	if l := in.limits; l.AllowAmplified && l.Charge > 1<<16 {
		l.Charge = 1 << 16
	}
	return in, true
}

// choose returns a number below n.
func (in *input) choose(n int) int {
	in.state = in.state*6364136223846793005 + 1442695040888963407
	return int((in.state >> 33) % uint64(n))
}

// seeds adds the inputs of the corpus.
func seeds(f *testing.F) {
	f.Add(make([]byte, 16))
	names, err := filepath.Glob(filepath.Join(*corpus, "*"))
	if *corpus == "" || err != nil {
		names = nil
	}
	for _, name := range names {
		data, err := os.ReadFile(name)
		if err != nil {
			f.Fatal(err)
		}
		f.Add(data)
	}
}

// pieces gives bytes in pieces of any size, and sometimes none. After them comes an error, or nothing ever again.
type pieces struct {
	in   *input
	all  int // the bytes at first
	rest []byte
	end  error
	// inside reports whether the reader of these bytes is inside a message, if it says so.
	inside func() bool
}

// errGone is the error of a reader that has failed.
var errGone = errors.New("the connection is gone")

// piecesOf returns a reader of bytes, which mostly end as they should.
func piecesOf(in *input, b []byte) *pieces {
	return &pieces{in: in, all: len(b), rest: b, end: []error{io.EOF, io.EOF, io.EOF, errGone, nil}[in.choose(5)]}
}

// ends returns the error of a stream of these bytes that ends with this one where it is whole.
func (p *pieces) ends(end error) error {
	var frame *capvet.FrameError
	if p.end == io.EOF || !errors.Is(end, io.EOF) && end != nil && !(errors.As(end, &frame) && frame.Reason == capvet.ReasonTruncated) {
		return end
	}
	if p.end == nil {
		return io.ErrNoProgress
	}
	return p.end
}

func (p *pieces) Read(b []byte) (int, error) {
	if len(b) == 0 {
		panic("a read without space")
	}
	if p.inside != nil && p.inside() && len(p.rest) == p.all {
		panic("inside a message before its first byte")
	}
	if p.in.choose(8) == 0 {
		return 0, nil
	}
	n := len(b)
	if p.in.choose(2) == 0 {
		n = 1 + p.in.choose(n)
	}
	n = copy(b[:n], p.rest)
	p.rest = p.rest[n:]
	if len(p.rest) == 0 && (n == 0 || p.in.choose(2) == 0) {
		return n, p.end
	}
	return n, nil
}

// verdicts returns the lines of the messages of b, by Vet, and the error at its end.
func verdicts(b []byte, l *capvet.Limits) (lines []string, err error) {
	for {
		n, err := capvet.FrameLength(b, l)
		if err == nil && len(lines) == most {
			err = errMost
		}
		if err != nil {
			return lines, err
		}
		m, err := capvet.Vet(b[:n:n], l)
		var refusal *capvet.Refusal
		if errors.As(err, &refusal) {
			lines = append(lines, refusal.Line())
		} else if err != nil {
			return lines, err
		} else {
			lines = append(lines, m.Report().String())
		}
		b = b[n:]
	}
}

// most is how many messages of a stream are looked at. (a short packed stream may have many)
const most = 300

// errMost is the error of a stream that has more.
var errMost = errors.New("more messages")

// scans returns the lines of a Scanner, and its error. Each accepted message is vetted again.
func scans(t *testing.T, s *capvet.Scanner, l *capvet.Limits) (lines []string, err error) {
	offset := int64(-1)
	if s.Message().Bytes() != nil {
		t.Fatal("bytes before the first message")
	}
	for b, refusal, ok := next(s); ok; b, refusal, ok = next(s) {
		if s.Number() != len(lines) || s.Offset() < offset {
			t.Fatal(s.Number(), s.Offset())
		}
		offset = s.Offset()
		if len(lines) == most {
			return lines, errMost
		}
		again, err := capvet.Vet(b, l)
		if refusal != nil {
			if s.Message().Bytes() != nil || len(b) != refusal.Length || refusal.Offset != offset {
				t.Fatal("bytes of a refused message")
			}
			refusal.Number, refusal.Offset = 0, 0
			same(t, "the refusal", err, refusal)
			lines = append(lines, refusal.Line())
			continue
		}
		if err != nil || again.Report() != s.Message().Report() {
			t.Fatal(again.Report(), err)
		}
		lines = append(lines, again.Report().String())
	}
	if s.Scan() {
		t.Fatal("a scan after the end")
	}
	return lines, s.Err()
}

// sameEnd compares the error of a Scanner with that of the bytes. Of a packed stream only the reason is the same.
func sameEnd(t *testing.T, want, got error, isPacked bool) {
	var one, other *capvet.FrameError
	switch {
	case errors.Is(want, io.EOF):
		want = nil
	case isPacked && errors.As(want, &one) && errors.As(got, &other) && one.Reason == other.Reason:
		return
	}
	if !isSame(placed(want, 0, 0), placed(got, 0, 0)) {
		t.Fatalf("want %#v, got %#v", want, got)
	}
}

// FuzzScanner compares Scanners over pieces of a stream, plain and packed, with calls of Vet. The buffers that are counted by
// Bound are given back.
func FuzzScanner(f *testing.F) {
	seeds(f)
	f.Fuzz(func(t *testing.T, data []byte) {
		in, ok := inputOf(data)
		if !ok {
			return
		}
		used, most := 0, []int{1 << 20, 70000, 9000}[in.choose(3)]
		in.limits.Exclusive = in.choose(2) == 0
		scan := func(s *capvet.Scanner) ([]string, error) {
			used = 0
			s.SetBound(func(n int) bool {
				if used+n > most {
					return false
				}
				used += n
				return true
			})
			lines, err := scans(t, s, in.limits)
			if used != 0 && err != errMost {
				t.Fatal(used, "bytes are in use after the end")
			}
			return lines, err
		}
		want, end := verdicts(in.bytes, in.limits)
		fuzzReader(t, in, want, end)
		plain := piecesOf(in, in.bytes)
		scanner := capvet.NewScanner(plain, in.limits)
		plain.inside = scanner.Inside
		got, err := scan(scanner)
		sameScan(t, want, got, plain.ends(end), err, false)
		if len(in.bytes)%8 == 0 {
			packed := piecesOf(in, packedWords(in.bytes))
			got, err = scan(capvet.NewPackedScanner(packed, in.limits))
			sameScan(t, want, got, packed.ends(end), err, true)
		}
		// (any bytes as a packed stream: however it comes, it has the same messages)
		want, end = scan(capvet.NewPackedScanner(bytes.NewReader(in.bytes), in.limits))
		packed := piecesOf(in, in.bytes)
		got, err = scan(capvet.NewPackedScanner(packed, in.limits))
		sameScan(t, want, got, packed.ends(end), err, true)
	})
}

// fuzzReader reads the bytes of accepted messages, which are those before the first one that is refused.
func fuzzReader(t *testing.T, in *input, lines []string, end error) {
	if end == errMost {
		return
	}
	length := 0
	for _, line := range lines {
		if strings.HasPrefix(line, "refused ") {
			end = nil
			break
		}
		n, err := capvet.FrameLength(in.bytes[length:], in.limits)
		if err != nil {
			t.Fatal(err)
		}
		length += n
	}
	pieces := piecesOf(in, in.bytes)
	got, err := io.ReadAll(capvet.NewReader(pieces, in.limits))
	if !bytes.Equal(got, in.bytes[:length]) {
		t.Fatalf("%d bytes are passed on of %d", len(got), length)
	}
	var refusal *capvet.Refusal
	if (end == nil) != errors.As(err, &refusal) {
		t.Fatal(end, err)
	}
	if end != nil {
		sameEnd(t, pieces.ends(end), err, false)
	}
}

// sameScan compares what two scans gave. Without space one may have ended before the other.
func sameScan(t *testing.T, want, got []string, end, err error, isPacked bool) {
	if end == capvet.ErrNoSpace || err == capvet.ErrNoSpace {
		if n := len(want); n < len(got) {
			got = got[:n]
		}
		want = want[:len(got)]
		end, err = nil, nil
	}
	if fmt.Sprint(want) != fmt.Sprint(got) {
		t.Fatal(want, got)
	}
	sameEnd(t, end, err, isPacked)
}

// FuzzCalls compares the functions with each other, over slices with and without spare capacity.
func FuzzCalls(f *testing.F) {
	seeds(f)
	f.Fuzz(func(t *testing.T, data []byte) {
		in, ok := inputOf(data)
		if !ok {
			return
		}
		b := append(make([]byte, in.slack, in.slack+len(in.bytes)), in.bytes...)[in.slack:]
		m, err := capvet.Vet(b, in.limits)
		fuzzVerdict(t, in, b, m, err)
		if err == nil {
			fuzzCanonical(t, in, m)
		}
		fuzzPacking(t, in, b)
		fuzzNodes(t, in, b, m, err)
		fuzzExplain(t, b, err)
		fuzzErrors(t, in, b)
	})
}

// fuzzErrors reads all that the errors of the functions say. The path of a refusal is a path.
func fuzzErrors(t *testing.T, in *input, b []byte) {
	_, vetErr := capvet.Vet(b, in.limits)
	_, exclusiveErr := capvet.Vet(b, exclusive(in.limits))
	_, frameErr := capvet.FrameLength(b, in.limits)
	_, formErr := capvet.IsCanonicalWords(b, in.limits)
	_, wordsErr := capvet.VetWords(b, in.limits)
	_, segmentsErr := capvet.VetSegments([][]byte{b, b}, in.limits)
	_, messageErr := capvet.AppendPackedMessage(nil, b, in.limits)
	_, unpackErr := capvet.AppendUnpackedWords(nil, b, in.choose(64))
	_, segmentErr := capvet.Segments(b[:in.choose(len(b)+1)])
	_, pathErr := capvet.PeekRange(nil, b, []string{"/p0", "p*", "/p*/x", "/p70000/i*"}[in.choose(4)], 0, in.limits)
	for _, err := range []error{vetErr, exclusiveErr, frameErr, formErr, wordsErr, segmentsErr, messageErr, unpackErr, segmentErr, pathErr} {
		var refusal *capvet.Refusal
		if err != nil && !strings.HasPrefix(err.Error(), "capvet: ") {
			t.Fatal(err)
		}
		if errors.As(err, &refusal) {
			path := refusal.Path()
			var bad *capvet.PathError
			if _, _, err := capvet.Peek(b, path, in.limits); path != "" && errors.As(err, &bad) {
				t.Fatal(path, err)
			}
		}
	}
	if !capvet.CPUSupported() || strings.Count(capvet.Version(), ".") != 2 {
		t.Fatal(capvet.Version())
	}
	if _, err := capvet.AppendPackedWords(nil, b); (err != nil) != (len(b)%8 != 0) {
		t.Error("a part of a word is packed")
	}
}

// explained is an explanation: lines that begin with two blanks, and the last one has the reason.
var explained = regexp.MustCompile(`^(  [!-~][ -~]*\n)*  reason [ -~]+\n$`)

// fuzzExplain explains what Vet refuses. The lines begin with the path of the refusal, and with the place and
// the word at its position.
func fuzzExplain(t *testing.T, b []byte, vetted error) {
	var refusal *capvet.Refusal
	if !errors.As(vetted, &refusal) {
		return
	}
	path, lines := refusal.Path(), refusal.Explain()
	if !explained.MatchString(lines) || (path == "") != (refusal.Pointer == 0) {
		t.Fatalf("%q, path %q", lines, path)
	}
	start := ""
	if path != "" {
		place, word := placeOf(b, refusal.Position)
		start = fmt.Sprintf("  path %s\n  byte %d of the message\n  pointer %x ", shown(path), place, word)
	}
	if !strings.HasPrefix(lines, start) {
		t.Fatalf("%q does not begin with %q", lines, start)
	}
}

// shown returns a path as a line has it: of more than 24 steps the first and the last 8.
func shown(path string) string {
	steps := strings.Split(path, "/")[1:]
	if len(steps) <= 24 {
		return path
	}
	first, last := strings.Join(steps[:8], "/"), strings.Join(steps[len(steps)-8:], "/")
	return fmt.Sprintf("/%s/.. %d steps ../%s", first, len(steps)-16, last)
}

// placeOf returns the place in bytes of a position in a message, and the word there.
func placeOf(b []byte, p capvet.Position) (int, []byte) {
	segments, _ := capvet.Segments(b)
	place := 8*(len(segments)/2+1) + 8*int(p.Word)
	for _, segment := range segments[:p.Segment] {
		place += len(segment)
	}
	return place, segments[p.Segment][8*p.Word:][:8]
}

func fuzzVerdict(t *testing.T, in *input, b []byte, m capvet.Message, err error) {
	if err != nil && (err.Error() == "" || m.Bytes() != nil || m.Report() != capvet.Report{}) {
		t.Fatal(m, err)
	}
	if other, otherErr := capvet.Vet(b, exclusive(in.limits)); otherErr == nil && (err != nil || other.Report() != m.Report()) {
		t.Fatal(other, m, err)
	}
	// (the first messages that VetAll counts are those that Vet accepts)
	count, length, end := capvet.VetAll(b, in.limits)
	rest, next := b, error(nil)
	for i := 0; i < count; i++ {
		if _, rest, next = capvet.VetPrefix(rest, in.limits); next != nil {
			t.Fatal(next)
		}
	}
	if len(b)-len(rest) != length {
		t.Fatal(length, len(rest))
	}
	if _, _, err := capvet.VetPrefix(rest, in.limits); !errors.Is(err, io.EOF) && !isSame(placed(err, count, int64(length)), end) || (len(rest) == 0) != (end == nil) {
		if _, isLimits := end.(*capvet.LimitsError); !isLimits {
			t.Fatal(err, end)
		}
	}
	segments, frameErr := capvet.Segments(b)
	if err == nil && (frameErr != nil || len(segments) != m.Report().Segments || len(m.Segments()) != len(segments)) {
		t.Fatal(len(segments), frameErr)
	}
}

func fuzzDifference(t *testing.T, m capvet.Message) {
	d, ok := m.FirstDifference()
	if ok == m.IsCanonical() {
		t.Fatal(d, ok)
	}
	hasNoPointer := !ok || d.Reason == capvet.DifferenceSegments || d.Reason == capvet.DifferenceTrailing
	if path := d.Path(); (path == "") != hasNoPointer || ok && d.Reason.String() == "Unknown" {
		t.Fatal(d, path)
	}
}

func fuzzCanonical(t *testing.T, in *input, m capvet.Message) {
	b, report := m.Bytes(), m.Report()
	dst := append(make([]byte, 0, in.choose(200)), "prefix"...)
	fuzzDifference(t, m)
	form, formErr := m.AppendCanonical(dst)
	if (report.Capabilities == 0) != (formErr == nil) || string(form[:6]) != "prefix" {
		t.Fatal(formErr)
	}
	if formErr != nil {
		if len(form) != 6 || m.IsCanonical() {
			t.Fatal(len(form), m.IsCanonical())
		}
		return
	}
	if m.IsCanonical() != (report.Segments == 1 && bytes.Equal(form[6:], b[8:])) {
		t.Fatal(m.IsCanonical())
	}
	l := *in.limits
	l.MessageWords = 1 << 28
	if is, err := capvet.IsCanonicalWords(form[6:], &l); err != nil || !is {
		t.Fatal(is, err)
	}
	l.AllowAmplified = true
	if again, err := capvet.VetWords(form[6:], &l); err != nil || !again.IsCanonical() || again.Report().Charge > report.Charge {
		t.Fatal(again.Report(), err)
	}
	// (the result is in new memory if it would overwrite the message)
	shared := append(make([]byte, 0, 3*len(b)+64), b...)
	again, err := capvet.Vet(shared, in.limits)
	if err != nil {
		t.Fatal(err)
	}
	over, err := again.AppendCanonical(shared[:0])
	if err != nil || !bytes.Equal(over, form[6:]) || !bytes.Equal(shared, b) {
		t.Fatal(err)
	}
}

func fuzzPacking(t *testing.T, in *input, b []byte) {
	words := b[:len(b)/8*8]
	packed, err := capvet.AppendPackedWords(make([]byte, 3, 3+in.choose(99)), words)
	if err != nil {
		t.Fatal(err)
	}
	packed = packed[3:]
	unpacked, err := capvet.AppendUnpackedWords(nil, packed, len(words))
	if err != nil || !bytes.Equal(unpacked, words) {
		t.Fatal(err)
	}
	if _, err := capvet.AppendUnpackedWords(nil, packed, len(words)-1); len(words) > 0 && err == nil {
		t.Fatal("unpacked above the limit")
	}
	if all, err := capvet.AppendUnpackedWords(nil, b, 1<<16); err == nil && len(all) > 1<<16 {
		t.Fatal(len(all))
	}
	message, err := capvet.AppendPackedMessage(nil, b, in.limits)
	if err != nil {
		return
	}
	n, err := capvet.FrameLength(b, in.limits)
	if err != nil {
		t.Fatal(err)
	}
	again, err := capvet.AppendUnpackedWords(nil, message, n)
	if err != nil || len(again) != n || !bytes.Equal(again[8:], b[8:n]) && again[0]%2 == 0 {
		t.Fatal(err)
	}
}

// fuzzNodes follows a path of any steps, and compares the nodes of a range with those of each path.
func fuzzNodes(t *testing.T, in *input, b []byte, m capvet.Message, vetted error) {
	path := ""
	for len(path) < 30 {
		node, ok, err := capvet.Peek(b, path+map[bool]string{true: "/"}[path == ""], in.limits)
		if err != nil && vetted == nil {
			t.Fatal(path, err)
		}
		if other, isThere, err := m.Get(path + map[bool]string{true: "/"}[path == ""]); vetted == nil && (err != nil || isThere != ok || !reflect.DeepEqual(node, other)) {
			t.Fatal(path, other, err)
		}
		if strings.HasPrefix(node.Kind.String(), "Kind(") {
			t.Fatal(node.Kind)
		}
		if end := node.Offset + len(node.Data); end > len(b) || (!ok && end != 0) {
			t.Fatal(path, node)
		}
		if !ok {
			break
		}
		letter := map[bool]string{true: "/p", false: "/i"}[node.Kind == capvet.KindStruct]
		fuzzRange(t, in, b, path+letter)
		path += letter + fmt.Sprint(in.choose(8))
	}
	// (any text)
	text := string(b[:in.choose(len(b)+1)%20])
	var bad *capvet.PathError
	if _, _, err := capvet.Peek(b, text, in.limits); errors.As(err, &bad) && bad.Offset > len(text) {
		t.Fatal(bad)
	}
	if _, err := capvet.PeekRange(nil, b, text, 0, in.limits); errors.As(err, &bad) && bad.Offset > len(text) {
		t.Fatal(bad)
	}
}

func fuzzRange(t *testing.T, in *input, b []byte, path string) {
	dst, first := make([]capvet.Node, in.choose(5)), uint32(in.choose(4))
	n, err := capvet.PeekRange(dst, b, path+"*", first, in.limits)
	for k := range dst {
		node, ok, oneErr := capvet.Peek(b, path+fmt.Sprint(int(first)+k), in.limits)
		if k < n && (!ok || !reflect.DeepEqual(node, dst[k])) {
			t.Fatal(path, k, node, dst[k])
		}
		if k == n && (ok || !isSame(oneErr, err)) {
			t.Fatal(path, k, oneErr, err)
		}
	}
}
