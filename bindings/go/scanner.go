package capvet

// #include "calls.h"
import "C"

import (
	"errors"
	"io"
	"sync"
)

const (
	// step is how many bytes a Scanner reads ahead of a packed stream, how many it allocates at first for a message, and
	// the largest buffer that it keeps between two messages.
	step = 64 << 10
	// emptyReads is how often a reader may return neither bytes nor an error.
	emptyReads = 100
)

// Scanner reads a stream of messages from an io.Reader and checks each one.
//
//	s := capvet.NewScanner(conn, nil)
//	for s.Scan() {
//		handle(s.Message())
//	}
//	if err := s.Err(); err != nil {
//		return err
//	}
//
// A refused message ends the loop, and Err returns its *Refusal. To go on with the message after it, call Scan again. So does
// a timeout of the reader, an error whose method Timeout returns true: no byte is lost. Any other error ends the scan. Scan returns a message as soon as its bytes have come, whatever comes after them.
//
// A Scanner holds one message, whose size Limits.MessageWords bounds. Its buffer grows as bytes arrive, not by what a table
// claims. While it waits for the next message, the garbage collector may free a buffer of more than 64 KiB. A Scanner
// reads exactly the bytes of each frame; a packed stream is read ahead by at most 64 KiB.
type Scanner struct {
	reader io.Reader
	limits Limits
	next   func(*Scanner) (Message, error)

	change func(bytes int) bool // says whether the buffer may grow
	buffer []byte               // the message so far
	// (a pool for all scanners would show the bytes of one connection to another that kept a slice too long)
	large   sync.Pool // a buffer of more than step bytes, between two messages
	readErr error     // what the reader returned together with its last bytes

	packed []byte             // a packed stream: what was read and is not unpacked
	ahead  []byte             // the buffer of packed
	state  C.capvet_unpacking // how far the message is unpacked

	number  int
	offset  int64 // where the message starts
	taken   int64 // the bytes of the stream that messages have, the part of the last one included
	message Message
	err     error
	paused  bool // err is a timeout, and a part of the message may be there
	ended   bool // err is one after which there are no more messages
}

// NewScanner returns a Scanner for a stream of frames.
func NewScanner(r io.Reader, l *Limits) *Scanner {
	return &Scanner{reader: r, limits: l.orDefault(), next: (*Scanner).readMessage, number: -1}
}

// NewPackedScanner returns a Scanner for a packed stream. Its messages are unpacked.
func NewPackedScanner(r io.Reader, l *Limits) *Scanner {
	return &Scanner{reader: r, limits: l.orDefault(), next: (*Scanner).unpackMessage, ahead: make([]byte, step), number: -1}
}

// ErrNoSpace is the error of a scan whose buffer was not allowed to grow: see Scanner.SetBound.
var ErrNoSpace = errors.New("capvet: the buffer of the message may not grow")

// SetBound makes the Scanner ask before its buffer grows. change is called with the bytes that are to be added; if it returns
// false, the scan ends with ErrNoSpace. It is also called, with a negative number, for bytes that are no longer used. So many
// scanners can share a bound. The 64 KiB that a packed stream is read ahead are not a part of it. Call SetBound before Scan.
//
// A scan that has ended uses no bytes. If you stop earlier, the bytes that were added and not taken away are those in use.
func (s *Scanner) SetBound(change func(bytes int) bool) {
	s.change = change
}

// Scan reads and vets the next message. It returns false at the end of the stream, at a refused message, and at another
// error of Err. After a refused message and after a timeout of the reader it may be called again.
func (s *Scanner) Scan() bool {
	if s.ended {
		return false
	}
	if !s.paused {
		s.number++
		s.offset = s.taken
		s.release()
	}
	s.message, s.err = Message{}, nil
	if s.limits.isAbove() {
		s.err = &LimitsError{Limits: s.limits}
	} else {
		s.message, s.err = s.next(s)
	}
	s.paused = false
	if s.err == nil {
		return true
	}
	s.err = placed(s.err, s.number, s.offset)
	if _, isRefused := s.err.(*Refusal); isRefused {
		return false
	}
	if isTimeout(s.err) {
		s.paused, s.readErr = true, nil
		return false
	}
	s.ended = true
	s.replace(nil)
	return false
}

// isTimeout reports whether an error is about a deadline, so that reading may go on.
func isTimeout(err error) bool {
	var timeout interface{ Timeout() bool }
	return errors.As(err, &timeout) && timeout.Timeout()
}

// Message returns the message that Scan has accepted, or the zero Message if there is none. The next call of Scan overwrites
// its bytes: Message.Clone keeps them.
func (s *Scanner) Message() Message {
	return s.message
}

// Number returns the number of the message, accepted or refused, from 0. After the scan it is how many messages there were.
func (s *Scanner) Number() int {
	return s.number
}

// Offset returns where the message starts: how many bytes of the stream come before it, packed bytes of a packed stream.
// After the scan it is where the message starts that was not whole or not within the limits, or the length of the stream.
func (s *Scanner) Offset() int64 {
	return s.offset
}

// Inside reports whether a part of the next message has come. A reader may call it from Read, and then wait less long for
// the rest of a message than for the first byte of one.
func (s *Scanner) Inside() bool {
	return len(s.buffer) > 0 || len(s.packed) > 0 || s.state != C.capvet_unpacking{}
}

// Err returns why Scan returned false: nil at the end of the stream, and a *Refusal of a refused message. It is a *FrameError
// if the stream ends inside a message or stops being one, and a *LimitsError for limits that are not valid. Otherwise it is
// the error of the reader.
func (s *Scanner) Err() error {
	if s.err == io.EOF {
		return nil
	}
	return s.err
}

// read reads once into b, which has at least one byte. It returns how many bytes it read, at least one, or an error.
func (s *Scanner) read(b []byte) (int, error) {
	for tries := 0; s.readErr == nil; tries++ {
		if tries == emptyReads {
			return 0, io.ErrNoProgress
		}
		var n int
		if n, s.readErr = s.reader.Read(b); n > 0 {
			return n, nil
		}
	}
	return 0, s.readErr
}

// release empties the buffer. A large one is kept only as long as the garbage collector lets it.
func (s *Scanner) release() {
	if cap(s.buffer) > step {
		large := s.buffer[:0]
		s.large.Put(&large)
		s.replace(nil)
	}
	s.buffer = s.buffer[:0]
}

// replace puts another buffer in place of this one, which may have been allowed.
func (s *Scanner) replace(buffer []byte) {
	if s.change != nil && cap(s.buffer) > 0 {
		s.change(-cap(s.buffer))
	}
	s.buffer = buffer
}

// reserve gives the buffer a capacity above its length that grows with the bytes that are there. A new buffer has at most
// n bytes.
func (s *Scanner) reserve(n int) error {
	if len(s.buffer) < cap(s.buffer) {
		return nil
	}
	size := 2 * len(s.buffer)
	if size < step {
		size = step
	}
	if size > n {
		size = n
	}
	var buffer []byte
	if n > step {
		if large, ok := s.large.Get().(*[]byte); ok && cap(*large) > len(s.buffer) {
			buffer, size = *large, cap(*large)
		}
	}
	if s.change != nil && !s.change(size) {
		return ErrNoSpace
	}
	if buffer == nil {
		buffer = make([]byte, 0, size)
	}
	s.replace(append(buffer, s.buffer...))
	return nil
}

// fill reads until the buffer has the bytes that are required. The error is io.EOF if not even the first of them came.
func (s *Scanner) fill(required int) error {
	for len(s.buffer) < required {
		if err := s.reserve(required); err != nil {
			return err
		}
		end := cap(s.buffer)
		if end > required {
			end = required
		}
		n, err := s.read(s.buffer[len(s.buffer):end])
		if err == io.EOF && len(s.buffer) > 0 {
			return &FrameError{Reason: ReasonTruncated, Required: uint64(required)}
		}
		if err != nil {
			return err
		}
		s.buffer = s.buffer[:len(s.buffer)+n]
		s.taken += int64(n)
	}
	return nil
}

// readMessage reads the next message of a plain stream and vets it. The error is io.EOF between two messages.
func (s *Scanner) readMessage() (Message, error) {
	for required := 8; ; {
		if err := s.fill(required); err != nil {
			return Message{}, err
		}
		var r C.capvet_go_result
		answer(&r, s.buffer, &s.limits, whole)
		if r.answer != C.CAPVET_TRUNCATED {
			return messageOf(&r, s.buffer, &s.limits)
		}
		required = int(r.report.input_required)
	}
}

// unpackMessage unpacks the next message of a packed stream and vets it. The error is io.EOF between two messages.
func (s *Scanner) unpackMessage() (Message, error) {
	for {
		out, size := spare(s.buffer[:0])
		u := C.capvet_go_unpack_message(pointer(s.packed), C.size_t(len(s.packed)), s.limits.raw(whole), out, size, s.state)
		s.packed, s.state = s.packed[u.consumed:], u.state
		s.taken += int64(u.consumed)
		s.buffer = s.buffer[:s.state.written]
		switch u.result.answer {
		case C.CAPVET_OK:
			s.buffer = s.buffer[:u.result.report.length]
			return vet(s.buffer, &s.limits, whole)
		case C.CAPVET_BUFFER_TOO_SMALL:
			if err := s.reserve(int(u.result.required)); err != nil {
				return Message{}, err
			}
		case C.CAPVET_NO_MESSAGE, C.CAPVET_TRUNCATED:
			if err := s.readAhead(u.result.answer == C.CAPVET_TRUNCATED); err != nil {
				return Message{}, err
			}
		default:
			return Message{}, errorOf(&u.result, nil, s.limits)
		}
	}
}

// readAhead reads once more of a packed stream, after the bytes that are not unpacked. isInside says that a part of a message
// has come.
func (s *Scanner) readAhead(isInside bool) error {
	n := copy(s.ahead, s.packed)
	more, err := s.read(s.ahead[n:])
	s.packed = s.ahead[:n+more]
	if err == io.EOF && isInside {
		return &FrameError{Reason: ReasonTruncated}
	}
	return err
}
