package capvet_test

import (
	"bytes"
	"encoding/binary"
	"errors"
	"io"
	"reflect"
	"strings"
	"sync"
	"testing"

	"capvet.invalid/capvet"
)

// capability is one segment of one word, which is the capability 5.
var capability = []byte{0, 0, 0, 0, 1, 0, 0, 0, 3, 0, 0, 0, 5, 0, 0, 0}

// nullPad is a far pointer to a landing pad of zeros.
var nullPad = []byte{0, 0, 0, 0, 2, 0, 0, 0, 10, 0, 0, 0, 0, 0, 0, 0, 0, 0, 0, 0, 0, 0, 0, 0}

// amplified is a list of 4,098 elements without bits in one word: one more than an unamplified message has.
var amplified = []byte{0, 0, 0, 0, 1, 0, 0, 0, 1, 0, 0, 0, 0x10, 0x80, 0, 0}

// with returns the default limits, with what l sets: a number other than 0, and each flag.
func with(l capvet.Limits) *capvet.Limits {
	numbers := capvet.DefaultLimits()
	if l.MessageWords == 0 {
		l.MessageWords = numbers.MessageWords
	}
	if l.Charge == 0 {
		l.Charge = numbers.Charge
	}
	if l.Depth == 0 {
		l.Depth = numbers.Depth
	}
	return &l
}

// exclusive returns limits that also refuse a word that is used twice.
func exclusive(l *capvet.Limits) *capvet.Limits {
	copied := capvet.DefaultLimits()
	if l != nil {
		copied = *l
	}
	copied.Exclusive = true
	return &copied
}

// join returns messages one after the other in new memory.
func join(messages ...[]byte) []byte {
	return bytes.Join(messages, nil)
}

// many returns a message of n segments, the first with the null pointer and the others empty.
func many(n int) []byte {
	b := make([]byte, (n/2+1)*8+8)
	b[0], b[1], b[4] = byte(n-1), byte((n-1)>>8), 1
	return b
}

// placed returns a copy of an error with this place of the message.
func placed(err error, number int, offset int64) error {
	switch e := public(err).(type) {
	case *capvet.Refusal:
		e.Number, e.Offset = number, offset
		return e
	case *capvet.FrameError:
		e.Number, e.Offset = number, offset
		return e
	}
	return err
}

// public returns an error without what only the package sees.
func public(err error) error {
	switch e := err.(type) {
	case *capvet.Refusal:
		return &capvet.Refusal{Reason: e.Reason, Position: e.Position, Pointer: e.Pointer, Length: e.Length, Number: e.Number,
			Offset: e.Offset}
	case *capvet.FrameError:
		return &capvet.FrameError{Reason: e.Reason, Required: e.Required, Segments: e.Segments, Words: e.Words,
			TrailingBytes: e.TrailingBytes, Segment: e.Segment, Length: e.Length, Number: e.Number, Offset: e.Offset}
	}
	return err
}

// packedWords returns words in packed form.
func packedWords(b []byte) []byte {
	packed, err := capvet.AppendPackedWords(nil, b)
	if err != nil {
		panic(err)
	}
	return packed
}

// isSame compares errors by their types and their fields.
func isSame(want, got error) bool {
	return reflect.DeepEqual(public(want), public(got))
}

// same compares an error with the one that is expected, by its type and its fields.
func same(t *testing.T, what string, want, got error) {
	t.Helper()
	if !isSame(want, got) {
		t.Errorf("%s: want %#v, got %#v", what, want, got)
	}
}

// accepted vets a message that has to be accepted.
func accepted(t *testing.T, b []byte) capvet.Message {
	t.Helper()
	m, err := capvet.Vet(b, nil)
	if err != nil {
		t.Fatal(err)
	}
	return m
}

// canonical returns the canonical words of a message that is accepted by the default limits.
func canonical(dst, b []byte) ([]byte, error) {
	m, err := capvet.Vet(b, nil)
	if err != nil {
		return dst, err
	}
	return m.AppendCanonical(dst)
}

func TestErrorsOfVet(t *testing.T) {
	trailing := append(join(null), 7)
	for _, row := range []struct {
		what string
		b    []byte
		l    *capvet.Limits
		want error
	}{
		{"nil", nil, nil, &capvet.FrameError{Reason: capvet.ReasonNoMessage, Required: 8}},
		{"a part of the table", null[:7], nil, &capvet.FrameError{Reason: capvet.ReasonTruncated, Required: 8}},
		{"a part of the words", null[:15], nil, &capvet.FrameError{Reason: capvet.ReasonTruncated, Required: 16}},
		{"513 segments", many(513), nil, &capvet.FrameError{Reason: capvet.ReasonTooManySegments, Segments: 513}},
		{"too many words", nullPad, with(capvet.Limits{MessageWords: 1}), &capvet.FrameError{Reason: capvet.ReasonTooLarge, Words: 2}},
		{"trailing", trailing, nil, &capvet.FrameError{Reason: capvet.ReasonTrailing, TrailingBytes: 1, Length: 16}},
		{"a cycle", cycle, nil, &capvet.Refusal{Reason: capvet.ReasonDepthLimit, Pointer: 65, Length: 16}},
		{"a cycle of 3", cycle, with(capvet.Limits{Depth: 3}), &capvet.Refusal{Reason: capvet.ReasonDepthLimit, Pointer: 4, Length: 16}},
		{"a charge above 1", sample("shared.bin"), with(capvet.Limits{Charge: 3}), &capvet.Refusal{Reason: capvet.ReasonWordLimit,
			Position: capvet.Position{Word: 2}, Pointer: 3, Length: 40}},
		{"a null pad", nullPad, nil, &capvet.Refusal{Reason: capvet.ReasonNullPad, Pointer: 1, Length: 24}},
		{"a null pad, allowed", nullPad, with(capvet.Limits{AllowNonstrict: true}), nil},
		{"amplified", amplified, nil, &capvet.Refusal{Reason: capvet.ReasonWordLimit, Pointer: 1, Length: 16}},
		{"amplified, allowed", amplified, with(capvet.Limits{AllowAmplified: true}), nil},
		{"512 segments", many(512), nil, &capvet.Refusal{Reason: capvet.ReasonManySegments, Length: 2064}},
		{"511 segments", many(511), nil, nil},
		{"no root", make([]byte, 8), nil, &capvet.Refusal{Reason: capvet.ReasonNoRoot, Length: 8}},
		{"no words are allowed", null, &capvet.Limits{Charge: 1, Depth: 1}, &capvet.FrameError{Reason: capvet.ReasonTooLarge, Words: 1}},
		{"no charge is allowed", sample("shared.bin"), &capvet.Limits{MessageWords: 9, Depth: 9},
			&capvet.Refusal{Reason: capvet.ReasonWordLimit, Pointer: 1, Length: 40}},
		{"no level is allowed", sample("shared.bin"), &capvet.Limits{MessageWords: 9, Charge: 9},
			&capvet.Refusal{Reason: capvet.ReasonDepthLimit, Pointer: 1, Length: 40}},
		{"a depth above 256", null, with(capvet.Limits{Depth: 257}), &capvet.LimitsError{Limits: *with(capvet.Limits{Depth: 257})}},
		{"words above the most", null, with(capvet.Limits{MessageWords: 1<<28 + 1}),
			&capvet.LimitsError{Limits: *with(capvet.Limits{MessageWords: 1<<28 + 1})}},
		{"a charge above the most", null, with(capvet.Limits{Charge: 1<<28 + 1}),
			&capvet.LimitsError{Limits: *with(capvet.Limits{Charge: 1<<28 + 1})}},
	} {
		m, err := capvet.Vet(row.b, row.l)
		same(t, row.what, row.want, err)
		if (m.Bytes() != nil) != (err == nil) || m.Report().Length != len(m.Bytes()) {
			t.Errorf("%s: %d bytes, %+v", row.what, len(m.Bytes()), m.Report())
		}
		var refusal *capvet.Refusal
		if errors.As(err, &refusal) && &refusal.Unvetted()[0] != &row.b[0] {
			t.Errorf("%s: other bytes are unvetted", row.what)
		}
		if _, isLimits := row.want.(*capvet.LimitsError); row.want != nil && !isLimits {
			_, err = capvet.Vet(row.b, exclusive(row.l))
			same(t, row.what+", exclusive", row.want, err)
		}
	}
}

func TestErrorsAreTakenApart(t *testing.T) {
	// (no bytes are the end of a stream, and no message)
	_, err := capvet.Vet(nil, nil)
	if errors.Is(err, io.EOF) || errors.Is(err, io.ErrUnexpectedEOF) || !errors.Is(err, capvet.ReasonNoMessage) {
		t.Error(err)
	}
	_, prefixErr := capvet.FrameLength(nil, nil)
	_, _, err = capvet.VetPrefix(nil, nil)
	for _, err := range []error{err, prefixErr} {
		if !errors.Is(err, io.EOF) || errors.Is(err, io.ErrUnexpectedEOF) || !errors.Is(err, capvet.ReasonNoMessage) {
			t.Error(err)
		}
	}
	_, err = capvet.Vet(cycle, nil)
	var reason capvet.Reason
	if !errors.Is(err, capvet.ReasonDepthLimit) || errors.Is(err, capvet.ReasonWordLimit) || !errors.As(err, &reason) || reason != capvet.ReasonDepthLimit {
		t.Error(err, reason)
	}
	_, err = capvet.Vet(null[:9], nil)
	if errors.Is(err, io.EOF) || !errors.Is(err, io.ErrUnexpectedEOF) {
		t.Error(err)
	}
	for text, err := range map[string]error{
		"capvet: NoMessage: at least 8 bytes are required": &capvet.FrameError{Reason: capvet.ReasonNoMessage, Required: 8},
		"capvet: TooManySegments: 513 segments, at most 512 are allowed": &capvet.FrameError{
			Reason: capvet.ReasonTooManySegments, Segments: 513},
		"capvet: TooLarge: 7 words are above the limit":     &capvet.FrameError{Reason: capvet.ReasonTooLarge, Words: 7},
		"capvet: Truncated: the packed bytes are cut":       &capvet.FrameError{Reason: capvet.ReasonTruncated},
		"capvet: Truncated: at least 16 bytes are required": &capvet.FrameError{Reason: capvet.ReasonTruncated, Required: 16},
		"capvet: Trailing: 1 bytes after a message of 16 bytes": &capvet.FrameError{
			Reason: capvet.ReasonTrailing, TrailingBytes: 1, Length: 16},
		"capvet: Unknown": &capvet.FrameError{Reason: 99},
		"capvet: BadSegment: segment 3 is not of whole words": &capvet.FrameError{Reason: capvet.ReasonBadSegment, Segment: 3},
		"capvet: refused Unknown at 1:1 pointers 0":           &capvet.Refusal{Position: capvet.Position{Segment: 1, Word: 1}},
		"capvet: refused Overlap at 1:2 pointers 3": &capvet.Refusal{Reason: capvet.ReasonOverlap,
			Position: capvet.Position{Segment: 1, Word: 2}, Pointer: 3},
		"capvet: refused Unknown at 0:0 pointers 0": &capvet.Refusal{Reason: 99},
		"capvet: HasCapability at 0:0":              &capvet.CapabilityError{},
		`capvet: bad path "/p0x" at byte 3`:         &capvet.PathError{Path: "/p0x", Offset: 3},
		"capvet: BadLimits: MessageWords is 268435457, at most 268435456 are allowed": &capvet.LimitsError{
			Limits: capvet.Limits{MessageWords: 1<<28 + 1}},
		"capvet: BadLimits: Charge is 268435457, at most 268435456 are allowed": &capvet.LimitsError{
			Limits: capvet.Limits{Charge: 1<<28 + 1}},
		"capvet: BadLimits: Depth is 257, at most 256 are allowed": &capvet.LimitsError{Limits: capvet.Limits{Depth: 257}},
	} {
		if err.Error() != text {
			t.Errorf("want %q, got %q", text, err)
		}
	}
	if text := (&capvet.LimitsError{}).Error(); !strings.HasPrefix(text, "capvet: BadLimits: {MessageWords:0 ") {
		t.Error(text)
	}
}

// VetAll accepts what Vet accepts, message by message, and ends with its error.
func TestVetAll(t *testing.T) {
	contacts, shared := sample("contacts.bin"), sample("shared.bin")
	accepted := join(contacts, shared, null, sample("contacts-many-segments.bin"), null)
	for _, rest := range [][]byte{nil, cycle, nullPad, amplified, null[:1], contacts[:3000], many(512), many(513)} {
		for _, l := range []*capvet.Limits{nil, exclusive(nil), with(capvet.Limits{AllowNonstrict: true, AllowAmplified: true}),
			with(capvet.Limits{MessageWords: 2}), exclusive(with(capvet.Limits{AllowNonstrict: true}))} {
			b := join(accepted, rest, null)
			if len(rest) > 0 && len(rest)%8 != 0 || len(rest) == 3000 {
				b = b[:len(accepted)+len(rest)]
			}
			count, length, err := capvet.VetAll(b, l)
			wantCount, wantLength, want := 0, 0, error(nil)
			for rest := b; len(rest) > 0; {
				var m capvet.Message
				if m, rest, want = capvet.VetPrefix(rest, l); want != nil {
					break
				}
				wantCount, wantLength = wantCount+1, wantLength+len(m.Bytes())
			}
			same(t, "VetAll", placed(want, wantCount, int64(wantLength)), err)
			if count != wantCount || length != wantLength {
				t.Errorf("want %d of %d bytes, got %d of %d", wantCount, wantLength, count, length)
			}
		}
	}
	count, length, err := capvet.VetAll(nil, nil)
	if count != 0 || length != 0 || err != nil {
		t.Error(count, length, err)
	}
}

// VetPrefix goes on after each message, also after a refused one, and not after a broken frame.
func TestVetPrefix(t *testing.T) {
	shared := sample("shared.bin")
	b := join(shared, cycle, many(512), null, null[:9])
	twice := &capvet.Refusal{Reason: capvet.ReasonOverlap, Position: capvet.Position{Word: 2}, Pointer: 3, Length: 40}
	for _, row := range []struct {
		l    *capvet.Limits
		want error
	}{{nil, nil}, {exclusive(nil), twice}} {
		rest, lengths := b, []int{40, 16, 2064, 16, 0}
		for i, want := range []error{row.want, &capvet.Refusal{Reason: capvet.ReasonDepthLimit, Pointer: 65, Length: 16},
			&capvet.Refusal{Reason: capvet.ReasonManySegments, Length: 2064}, nil, &capvet.FrameError{Reason: capvet.ReasonTruncated, Required: 16}} {
			m, after, err := capvet.VetPrefix(rest, row.l)
			same(t, "VetPrefix", want, err)
			if len(rest)-len(after) != lengths[i] || err == nil && !bytes.Equal(m.Bytes(), rest[:lengths[i]]) {
				t.Errorf("message %d: %d bytes before the rest", i, len(rest)-len(after))
			}
			rest = after
		}
	}
	_, rest, err := capvet.VetPrefix(nil, nil)
	same(t, "nothing", &capvet.FrameError{Reason: capvet.ReasonNoMessage, Required: 8}, err)
	if len(rest) != 0 {
		t.Error(len(rest))
	}
}

func TestVetWords(t *testing.T) {
	amplifiedWords := amplified[8:]
	for _, row := range []struct {
		what string
		b    []byte
		l    *capvet.Limits
		want error
	}{
		{"the null pointer", null[8:], nil, nil},
		{"no words", nil, nil, &capvet.FrameError{Reason: capvet.ReasonNoMessage}},
		{"a part of a word", null[8:15], nil, &capvet.FrameError{Reason: capvet.ReasonTruncated, Required: 8}},
		{"too many", sample("shared.bin")[8:], with(capvet.Limits{MessageWords: 3}), &capvet.FrameError{Reason: capvet.ReasonTooLarge, Words: 4}},
		{"a cycle", cycle[8:], nil, &capvet.Refusal{Reason: capvet.ReasonDepthLimit, Pointer: 65, Length: 16}},
		{"twice", sample("shared.bin")[8:], exclusive(nil), &capvet.Refusal{Reason: capvet.ReasonOverlap, Position: capvet.Position{Word: 2},
			Pointer: 3, Length: 40}},
		{"amplified", amplifiedWords, nil, &capvet.Refusal{Reason: capvet.ReasonWordLimit, Pointer: 1, Length: 16}},
		{"a depth above 256", null[8:], with(capvet.Limits{Depth: 257}), &capvet.LimitsError{Limits: *with(capvet.Limits{Depth: 257})}},
	} {
		m, err := capvet.VetWords(row.b, row.l)
		same(t, row.what, row.want, err)
		var refusal *capvet.Refusal
		if frame := framed(binary.LittleEndian.Uint64(append(join(row.b), make([]byte, 8)...))); err == nil && !bytes.Equal(m.Bytes(), frame) {
			t.Errorf("%s: %x", row.what, m.Bytes())
		} else if errors.As(err, &refusal) && !bytes.Equal(refusal.Unvetted()[8:], row.b) {
			t.Errorf("%s: %x", row.what, refusal.Unvetted())
		}
	}
	// (canonical words may be amplified)
	is, err := capvet.IsCanonicalWords(amplifiedWords, nil)
	if !is || err != nil {
		t.Error(is, err)
	}
	_, err = capvet.IsCanonicalWords(amplifiedWords, with(capvet.Limits{Charge: 4097}))
	same(t, "a bound of the work", &capvet.Refusal{Reason: capvet.ReasonWordLimit, Pointer: 1, Length: 16}, err)
}

func TestCapabilities(t *testing.T) {
	m := accepted(t, capability)
	want := capvet.Report{Length: 16, Segments: 1, Words: 1, Pointers: 1, Capabilities: 1}
	if m.Report() != want || m.IsCanonical() {
		t.Error(m.Report(), m.IsCanonical())
	}
	if first, ok := m.Report().FirstCapability(); first != (capvet.Position{}) || !ok {
		t.Error(first, ok)
	}
	if _, ok := accepted(t, null).Report().FirstCapability(); ok {
		t.Error("the null pointer is no capability")
	}
	dst, err := m.AppendCanonical([]byte("x"))
	same(t, "a copy", &capvet.CapabilityError{Report: want}, err)
	if string(dst) != "x" {
		t.Errorf("%q", dst)
	}
	node, ok, err := m.Get("/")
	if node.Kind != capvet.KindCapability || node.Capability != 5 || !ok || err != nil {
		t.Error(node, ok, err)
	}
}

func TestNodes(t *testing.T) {
	shared := sample("shared.bin")
	m := accepted(t, shared)
	for path, want := range map[string]capvet.Node{
		"/":   {Kind: capvet.KindStruct, Pointers: 2, Offset: 16, Data: shared[16:16]},
		"/p1": {Kind: capvet.KindStruct, DataWords: 1, Offset: 32, Data: shared[32:40]},
	} {
		node, ok, err := m.Get(path)
		if !reflect.DeepEqual(node, want) || !ok || err != nil {
			t.Errorf("%s: want %+v, got %+v, %v, %v", path, want, node, ok, err)
		}
	}
	for _, path := range []string{"/p2", "/p0/p0", "/i0"} {
		if node, ok, err := m.Get(path); ok || err != nil {
			t.Error(path, node, err)
		}
	}
	for path, at := range map[string]int{"": 0, "p0": 0, "/p": 2, "/x0": 1, "/p01": 3, "/p1/": 4, "/p65536": 6} {
		_, _, err := m.Get(path)
		same(t, path, &capvet.PathError{Path: path, Offset: at}, err)
	}
	for kind, name := range map[capvet.Kind]string{capvet.KindNull: "Null", capvet.KindStructs: "Structs", 6: "Kind(6)"} {
		if text, err := kind.MarshalText(); kind.String() != name || string(text) != name || err != nil {
			t.Error(kind, name)
		}
	}
}

func TestSegments(t *testing.T) {
	segments, err := capvet.Segments(append(many(512), 1, 2, 3))
	if len(segments) != 512 || len(segments[0]) != 8 || cap(segments[0]) != 8 || len(segments[511]) != 0 || err != nil {
		t.Error(len(segments), err)
	}
	_, err = capvet.Segments(null[:15])
	same(t, "cut", &capvet.FrameError{Reason: capvet.ReasonTruncated, Required: 16}, err)
}

// A result never shares memory with the bytes that a function reads, whatever capacity dst has.
func TestOverlappingResults(t *testing.T) {
	contacts := sample("contacts.bin")
	packed := packedWords(contacts)
	want, err := canonical(nil, contacts)
	if err != nil {
		t.Fatal(err)
	}
	for at := 0; at < len(contacts); at += 100 {
		b := join(contacts, make([]byte, len(contacts)))
		copied, err := canonical(b[:at], b[:len(contacts):len(contacts)])
		if err != nil || !bytes.Equal(b[:len(contacts)], contacts) || !bytes.Equal(copied[at:], want) {
			t.Fatal(at, err)
		}
		again, err := capvet.AppendPackedWords(b[:at], b[:len(contacts)])
		if err != nil || !bytes.Equal(again[at:], packed) || !bytes.Equal(b[:len(contacts)], contacts) {
			t.Fatal(at, err)
		}
		b = join(packed, make([]byte, len(contacts)))
		words, err := capvet.AppendUnpackedWords(b[:at%len(packed)], b[:len(packed)], len(contacts))
		if err != nil || !bytes.Equal(words[at%len(packed):], contacts) || !bytes.Equal(b[:len(packed)], packed) {
			t.Fatal(at, err)
		}
	}
	// (within the capacity of dst, in place)
	dst := append(make([]byte, 0, len(contacts)+1), 'x')
	copied, err := canonical(dst, contacts)
	if err != nil || &copied[0] != &dst[0] || copied[0] != 'x' || !bytes.Equal(copied[1:], want) {
		t.Error(err)
	}
}

// A canonical form that is longer than its message is complete.
func TestLongerForms(t *testing.T) {
	shared := make([]byte, 0, 8+8+8*1000)
	shared = append(shared, 0, 0, 0, 0, 0xf3, 1, 0, 0) // 499 words
	shared = append(shared, 0, 0, 0, 0, 0, 0, 8, 0)    // a struct of 8 pointers
	for i := 0; i < 8; i++ {
		// each to the list of 490 words after them
		shared = append(shared, byte((7-i)<<2|1), 0, 0, 0, 0x55, 0x0f, 0, 0)
	}
	for len(shared) < 8+499*8 {
		shared = append(shared, byte(len(shared)))
	}
	m := accepted(t, shared)
	words, err := m.AppendCanonical(nil)
	if err != nil || uint64(len(words)) != 8*(m.Report().Charge+1) {
		t.Fatal(len(words), m.Report(), err)
	}
}

func TestPacking(t *testing.T) {
	packed, err := capvet.AppendPackedMessage([]byte("x"), join(null, null), nil)
	same(t, "trailing", &capvet.FrameError{Reason: capvet.ReasonTrailing, TrailingBytes: 16, Length: 16}, err)
	if string(packed) != "x" {
		t.Errorf("%q", packed)
	}
	packed, err = capvet.AppendPackedMessage(nil, null, nil)
	if string(packed) != "\x10\x01\x00\x00" || err != nil {
		t.Errorf("%q, %v", packed, err)
	}
	_, err = capvet.AppendUnpackedWords(nil, []byte{0}, 1<<20)
	same(t, "cut", &capvet.FrameError{Reason: capvet.ReasonTruncated}, err)
	words, err := capvet.AppendUnpackedWords(nil, nil, 0)
	if len(words) != 0 || err != nil {
		t.Error(words, err)
	}
	_, err = capvet.AppendUnpackedWords(nil, []byte{0, 255}, -1)
	same(t, "a negative size", &capvet.FrameError{Reason: capvet.ReasonTooLarge, Words: 256}, err)
	packed, err = capvet.AppendPackedWords([]byte("x"), null[:15])
	same(t, "a part of a word", &capvet.FrameError{Reason: capvet.ReasonTruncated, Required: 16}, err)
	if string(packed) != "x" {
		t.Errorf("%q", packed)
	}
}

func TestVetAllocatesNothing(t *testing.T) {
	contacts := sample("contacts.bin")
	allocated := testing.AllocsPerRun(100, func() {
		if _, err := capvet.Vet(contacts, nil); err != nil {
			t.Error(err)
		}
		if count, _, err := capvet.VetAll(contacts, nil); count != 1 || err != nil {
			t.Error(count, err)
		}
	})
	if allocated != 0 {
		t.Error(allocated)
	}
}

// Goroutines vet the same bytes at the same time. (The race detector looks at it.)
func TestGoroutines(t *testing.T) {
	contacts := sample("contacts.bin")
	want := accepted(t, contacts).Report()
	var group sync.WaitGroup
	for i := 0; i < 8; i++ {
		group.Add(1)
		go func() {
			defer group.Done()
			for j := 0; j < 200; j++ {
				m, err := capvet.Vet(contacts, exclusive(nil))
				_, refusal := capvet.Vet(cycle, nil)
				if m.Report() != want || err != nil || refusal == nil {
					t.Error(m.Report(), err, refusal)
				}
			}
		}()
	}
	group.Wait()
}

// Each reason has the name that the program prints for it.
func TestReasons(t *testing.T) {
	for reason, name := range map[capvet.Reason]string{
		capvet.ReasonNoMessage:        "NoMessage",
		capvet.ReasonTooManySegments:  "TooManySegments",
		capvet.ReasonTooLarge:         "TooLarge",
		capvet.ReasonTruncated:        "Truncated",
		capvet.ReasonTrailing:         "Trailing",
		capvet.ReasonOverlap:          "Overlap",
		capvet.ReasonNullPad:          "NullPad",
		capvet.ReasonEmptySegment:     "EmptySegment",
		capvet.ReasonCapabilityPad:    "CapabilityPad",
		capvet.ReasonManySegments:     "ManySegments",
		capvet.ReasonNoRoot:           "NoRoot",
		capvet.ReasonReserved:         "Reserved",
		capvet.ReasonSegmentMissing:   "SegmentMissing",
		capvet.ReasonPadOutside:       "PadOutside",
		capvet.ReasonPadIsFar:         "PadIsFar",
		capvet.ReasonPadNotFar:        "PadNotFar",
		capvet.ReasonTagKind:          "TagKind",
		capvet.ReasonTagOffset:        "TagOffset",
		capvet.ReasonOutOfSegment:     "OutOfSegment",
		capvet.ReasonCompositeTag:     "CompositeTag",
		capvet.ReasonCompositeOverrun: "CompositeOverrun",
		capvet.ReasonDepthLimit:       "DepthLimit",
		capvet.ReasonWordLimit:        "WordLimit",
		99:                            "Unknown",
		0:                             "Unknown",
	} {
		if reason.String() != name || reason.Error() != name {
			t.Errorf("want %s, got %v", name, reason)
		}
		var again capvet.Reason
		text, err := reason.MarshalText()
		if err != nil || string(text) != name {
			t.Error(name, string(text), err)
		}
		if err := again.UnmarshalText(text); again != reason && name != "Unknown" || (err == nil) != (name != "Unknown") {
			t.Error(name, again, err)
		}
	}
}
