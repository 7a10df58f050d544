package capvet

// #include "calls.h"
import "C"

import "encoding/binary"

// Message is a message that was vetted and accepted. Only vetting makes one: the zero value has no bytes.
//
// It has the bytes that were vetted, and no copy of them. So as long as a Message is in use, nothing may write these bytes.
// Clone gives a Message with bytes of its own.
type Message struct {
	bytes  []byte
	report Report
}

// Bytes returns the frame of the message: the bytes for a reader. They are those that were vetted, in place.
func (m Message) Bytes() []byte {
	return m.bytes
}

// Report returns what is known of the message.
func (m Message) Report() Report {
	return m.report
}

// ReaderLimits are what a reader has to allow for an accepted message. The fields have the names, the types and the units of
// the Message of capnproto.org/go/capnp/v3.
type ReaderLimits struct {
	TraverseLimit uint64 // bytes that the reader may traverse
	DepthLimit    uint   // nested objects
}

// ForReader returns the bytes of the message with the limits of their reader. readings is how often your code goes through
// the message: a reader counts each time.
//
// A reader refuses some accepted messages by its default limits. So these are those that a strict message needs at most, and
// never lower than the defaults of readers: 64 MiB and 64.
func (m Message) ForReader(readings int) (b []byte, limits ReaderLimits) {
	limits = ReaderLimits{TraverseLimit: 64 << 20, DepthLimit: 64}
	if bytes := 8 * m.report.ReaderWords(readings); bytes > limits.TraverseLimit {
		limits.TraverseLimit = bytes
	}
	if nesting := uint(m.report.ReaderNesting()); nesting > limits.DepthLimit {
		limits.DepthLimit = nesting
	}
	return m.bytes, limits
}

// Clone returns the message with a copy of its bytes, which nothing else writes.
func (m Message) Clone() Message {
	m.bytes = append([]byte(nil), m.bytes...)
	return m
}

// greatest are limits that every accepted message is within: what was accepted by lower ones is accepted by these.
var greatest = &Limits{MessageWords: C.CAPVET_MAX_MESSAGE_WORDS, Charge: C.CAPVET_MAX_CHARGE, Depth: C.CAPVET_MAX_DEPTH,
	AllowNonstrict: true, AllowAmplified: true}

// Get returns the node at a path such as "/p0/i1/p2". "/" is the root, /p steps from a struct to one of its pointers, and
// /i from a list of pointers or structs to an element. ok is false if the path leads to nothing.
//
// A node of KindNull means the field's default. No node means it only if each node before it on the path is null or
// of the kind that the schema has. Readers also take lists of other kinds: a list of pointers or values as a list of
// structs, and the other way round. So get the node of each list first, and refuse another kind.
//
// Node.Data is a slice of the bytes of the message. A vetted message is not refused: the error is a *PathError. Only if
// something has written the bytes since they were vetted, or for a zero Message, it is one of Vet.
func (m Message) Get(path string) (n Node, ok bool, err error) {
	return Peek(m.bytes, path, greatest)
}

// GetRange fills dst with the nodes at a path with one star, such as "/p0/i*/p2". The star is first, first+1 and so on.
// It returns how many nodes it filled in; the others of dst are unchanged. Each node is what Get returns for its path.
//
// With "/p0/i*" the nodes are the elements of a list. With "/p0/i*/p2" they are pointer 2 of each element, and with
// "/p*" the pointers of the root.
//
// They are fewer than len(dst) if the next path leads to nothing. It is after the last element or below a null one, the
// elements have no such pointer, or the list is of another kind than you expect. So get the node of the list first. It has
// to be of KindStructs, or readers may find fields where GetRange finds nothing. Its Count is how many elements there
// are, and its Pointers how many pointers each one has. To skip a path, call again with first+n+1, if that is below Count.
//
// GetRange allocates 56 bytes for each node of dst, and the steps of the path.
//
// The error is one of Get. A path without a star gives a *PathError at its end, and a second star one at that star.
func (m Message) GetRange(dst []Node, path string, first uint32) (n int, err error) {
	return PeekRange(dst, m.bytes, path, first, greatest)
}

// Segments returns the segments of the message, as slices of its bytes. It returns nil for a zero Message.
func (m Message) Segments() [][]byte {
	segments, _ := Segments(m.bytes)
	return segments
}

// IsCanonical reports whether the message is its own canonical form. It is false for a message with a capability.
func (m Message) IsCanonical() bool {
	r := C.capvet_go_check_canonical(pointer(m.bytes), C.size_t(len(m.bytes)), greatest.raw(whole))
	return r.answer == C.CAPVET_OK
}

// AppendCanonical appends the canonical words of the message to dst, without a table: equal content gives equal bytes.
// They are what to hash or sign. dst may share memory with the message: then the result is in new memory.
//
// The error is a *CapabilityError, and dst is then returned as it was.
func (m Message) AppendCanonical(dst []byte) ([]byte, error) {
	// (the form is seldom longer than the message; if it is, the first call answers its length)
	for n := len(m.bytes); ; {
		grown := grow(dst, m.bytes, n)
		out, size := spare(grown)
		r := C.capvet_go_canonical(pointer(m.bytes), C.size_t(len(m.bytes)), greatest.raw(whole), out, size)
		switch r.answer {
		case C.CAPVET_OK:
			return grown[:len(dst)+int(r.required)], nil
		case C.CAPVET_BUFFER_TOO_SMALL:
			n = int(r.required)
		default:
			return dst, errorOf(&r, nil, *greatest)
		}
	}
}

// VetSegments checks a message whose segments are separate, as Vet does. It copies them into one frame, which the Message
// and a *Refusal have, and then vets the copy.
//
// The error is a *LimitsError, a *Refusal or a *FrameError: ReasonNoMessage if there is no segment, ReasonTooManySegments,
// ReasonBadSegment if a segment is not of whole words, or ReasonTooLarge.
func VetSegments(segments [][]byte, l *Limits) (Message, error) {
	if err := frameOf(segments, l.orDefault()); err != nil {
		return Message{}, err
	}
	return Vet(framed(segments), l)
}

// VetWords checks a message without a table, as VetSegments does of one segment: the words that AppendCanonical returned.
//
// The error is one of Vet. Canonical words may be amplified: to accept all of them, set Limits.AllowAmplified.
func VetWords(b []byte, l *Limits) (Message, error) {
	if len(b) == 0 {
		return VetSegments(nil, l)
	}
	if tail := len(b) % 8; tail > 0 && !l.orDefault().isAbove() {
		return Message{}, &FrameError{Reason: ReasonTruncated, Required: uint64(len(b) - tail + 8)}
	}
	return VetSegments([][]byte{b}, l)
}

// frameOf returns why segments make no frame within the limits.
func frameOf(segments [][]byte, l Limits) error {
	if l.isAbove() {
		return &LimitsError{Limits: l}
	}
	if len(segments) == 0 {
		return &FrameError{Reason: ReasonNoMessage}
	}
	if len(segments) > C.CAPVET_MAX_SEGMENTS {
		return &FrameError{Reason: ReasonTooManySegments, Segments: uint64(len(segments))}
	}
	count := uint64(0)
	for i, segment := range segments {
		if len(segment)%8 != 0 {
			return &FrameError{Reason: ReasonBadSegment, Segment: i}
		}
		count += uint64(len(segment) / 8)
	}
	if count > l.MessageWords {
		return &FrameError{Reason: ReasonTooLarge, Words: count}
	}
	return nil
}

// framed returns the frame of segments, in new memory.
func framed(segments [][]byte) []byte {
	length := 8 * (len(segments)/2 + 1)
	for _, segment := range segments {
		length += len(segment)
	}
	b := binary.LittleEndian.AppendUint32(make([]byte, 0, length), uint32(len(segments)-1))
	for _, segment := range segments {
		b = binary.LittleEndian.AppendUint32(b, uint32(len(segment)/8))
	}
	b = b[:8*(len(segments)/2+1)]
	for _, segment := range segments {
		b = append(b, segment...)
	}
	return b
}
