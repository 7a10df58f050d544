package capvet

// #include "calls.h"
import "C"

import (
	"encoding/json"
	"fmt"
	"io"
)

// FrameError says that bytes hold no complete frame within the limits, or more than the frame. Fields that its reason does
// not name are 0.
//
// errors.Is(err, io.ErrUnexpectedEOF) holds for ReasonTruncated, and errors.Is(err, io.EOF) for ReasonNoMessage of
// FrameLength and VetPrefix, where no bytes are the regular end of a stream.
type FrameError struct {
	Reason        Reason
	Required      uint64 // NoMessage, Truncated: the least length of the bytes that gets further; of packed bytes 0
	Segments      uint64 // TooManySegments: how many
	Words         uint64 // TooLarge: how many
	TrailingBytes uint64 // Trailing: how many
	Segment       int    // BadSegment: its number, from 0
	Length        int    // Trailing: bytes of the frame
	Number        int    // the number of the message in its stream or buffer, from 0
	Offset        int64  // how many bytes come before it there, packed bytes of a packed stream

	isEnd bool // no bytes are the regular end
}

// Error returns a text such as "capvet: Trailing: 8 bytes after a message of 16 bytes".
func (e *FrameError) Error() string {
	return fmt.Sprintf("capvet: %v%s", e.Reason, e.amounts())
}

// Line returns what the program capvet prints after "message N: ", such as "TooLarge 8388609". Of a cut stream the program
// prints also its length.
func (e *FrameError) Line() string {
	if detail := e.Segments + e.Words + e.TrailingBytes; detail > 0 {
		return fmt.Sprintf("%v %d", e.Reason, detail)
	}
	return e.Reason.String()
}

// amounts returns what Error adds to the name of the reason, if there is anything to add.
func (e *FrameError) amounts() string {
	switch {
	case e.Reason == ReasonTooManySegments:
		return fmt.Sprintf(": %d segments, at most %d are allowed", e.Segments, C.CAPVET_MAX_SEGMENTS)
	case e.Reason == ReasonTooLarge:
		return fmt.Sprintf(": %d words are above the limit", e.Words)
	case e.Reason == ReasonTrailing:
		return fmt.Sprintf(": %d bytes after a message of %d bytes", e.TrailingBytes, e.Length)
	case e.Reason == ReasonBadSegment:
		return fmt.Sprintf(": segment %d is not of whole words", e.Segment)
	case e.Required > 0:
		return fmt.Sprintf(": at least %d bytes are required", e.Required)
	case e.Reason == ReasonTruncated:
		return ": the packed bytes are cut"
	}
	return ""
}

// Is reports whether target is io.EOF or io.ErrUnexpectedEOF and says the same as e.
func (e *FrameError) Is(target error) bool {
	return e.isEnd && e.Reason == ReasonNoMessage && target == io.EOF || e.Reason == ReasonTruncated && target == io.ErrUnexpectedEOF
}

// Unwrap returns the reason.
func (e *FrameError) Unwrap() error {
	return e.Reason
}

// MarshalJSON returns an object with the verdict "broken", and the fields of e that are not 0.
func (e *FrameError) MarshalJSON() ([]byte, error) {
	var segment *int
	if e.Reason == ReasonBadSegment {
		segment = &e.Segment
	}
	return json.Marshal(struct {
		Message       int    `json:"message"`
		Offset        int64  `json:"offset"`
		Length        int    `json:"length,omitempty"`
		Verdict       string `json:"verdict"`
		Reason        Reason `json:"reason"`
		Required      uint64 `json:"required,omitempty"`
		Segments      uint64 `json:"segments,omitempty"`
		Words         uint64 `json:"words,omitempty"`
		TrailingBytes uint64 `json:"trailing_bytes,omitempty"`
		Segment       *int   `json:"segment,omitempty"`
	}{e.Number, e.Offset, e.Length, "broken", e.Reason, e.Required, e.Segments, e.Words, e.TrailingBytes, segment})
}

// placed returns an error with the place of its message in a stream or a buffer.
func placed(err error, number int, offset int64) error {
	switch e := err.(type) {
	case *Refusal:
		e.Number, e.Offset = number, offset
	case *FrameError:
		e.Number, e.Offset = number, offset
	}
	return err
}

// asEnd returns an error for which no bytes are the regular end of a stream.
func asEnd(err error) error {
	if e, ok := err.(*FrameError); ok {
		e.isEnd = true
	}
	return err
}

// Refusal says that a message is refused, and names the pointer. ReasonManySegments and ReasonNoRoot are about no pointer:
// then Position is 0:0 and Pointer is 0, as the program capvet prints it.
type Refusal struct {
	Reason   Reason
	Position Position // of the pointer
	Pointer  uint64   // its number in preorder, from 1
	Length   int      // bytes of the message
	Number   int      // the number of the message in its stream or buffer, from 0
	Offset   int64    // how many bytes come before it there, packed bytes of a packed stream

	unvetted []byte
	limits   Limits
}

// Error returns the line with the name of the package before it.
func (e *Refusal) Error() string {
	return "capvet: " + e.Line()
}

// Line returns what the program capvet prints after "message N: ", such as "refused DepthLimit at 0:7 pointers 3".
func (e *Refusal) Line() string {
	return fmt.Sprintf("refused %v at %v pointers %d", e.Reason, e.Position, e.Pointer)
}

// Unwrap returns the reason.
func (e *Refusal) Unwrap() error {
	return e.Reason
}

// MarshalJSON returns an object with the verdict "refused", the reason, the place of the pointer, its path, and the place of
// the message in its stream.
func (e *Refusal) MarshalJSON() ([]byte, error) {
	type pointer struct {
		Segment uint32 `json:"segment"`
		Word    uint32 `json:"word"`
		Pointer uint64 `json:"pointer"`
		Path    string `json:"path,omitempty"`
	}
	var named *pointer
	if e.Pointer > 0 {
		named = &pointer{e.Position.Segment, e.Position.Word, e.Pointer, e.Path()}
	}
	return json.Marshal(struct {
		Message int    `json:"message"`
		Offset  int64  `json:"offset"`
		Length  int    `json:"length"`
		Verdict string `json:"verdict"`
		Reason  Reason `json:"reason"`
		*pointer
	}{e.Number, e.Offset, e.Length, "refused", e.Reason, named})
}

// Unvetted returns the bytes of the refused message, in place. They are for a log: no reader may have them. After a Scanner
// the next call of Scan overwrites them, and Path and Explain read them: Clone keeps them.
func (e *Refusal) Unvetted() []byte {
	return e.unvetted
}

// Clone returns the refusal with a copy of the bytes.
func (e *Refusal) Clone() *Refusal {
	kept := *e
	kept.unvetted = append([]byte(nil), e.unvetted...)
	return &kept
}

// CapabilityError says that a message is accepted, but has a capability and so no canonical form.
type CapabilityError struct {
	Report Report
}

// Error names the place of the first capability.
func (e *CapabilityError) Error() string {
	first, _ := e.Report.FirstCapability()
	return fmt.Sprintf("capvet: HasCapability at %v", first)
}

// PathError says that a text is not a path.
type PathError struct {
	Path   string
	Offset int // the byte at which it stops being one
}

// Error returns a text such as `capvet: bad path "/x7" at byte 1`.
func (e *PathError) Error() string {
	return fmt.Sprintf("capvet: bad path %q at byte %d", e.Path, e.Offset)
}

// LimitsError says that a number of Limits is above its maximum.
type LimitsError struct {
	Limits Limits
}

// Error names the number that is above its maximum.
func (e *LimitsError) Error() string {
	return "capvet: BadLimits: " + e.Limits.culprit()
}

// first returns the first n bytes of b, or nil if it has less.
func first(b []byte, n int) []byte {
	if len(b) < n {
		return nil
	}
	return b[:n:n]
}

// errorOf returns the error of an answer other than that of an accepted message. A refused message is what b begins with.
func errorOf(r *C.capvet_go_result, b []byte, l Limits) error {
	switch {
	case r.answer == C.CAPVET_BAD_LIMITS:
		return &LimitsError{Limits: l}
	case r.answer == C.CAPVET_HAS_CAPABILITY:
		return &CapabilityError{Report: reportOf(&r.report)}
	case r.answer < C.CAPVET_BAD_LIMITS:
		return frameErrorOf(&r.report, Reason(r.answer))
	}
	// (an answer that a later library adds is a refusal too)
	return &Refusal{
		Reason:   Reason(r.answer),
		Position: positionOf(&r.report),
		Pointer:  uint64(r.report.pointers),
		Length:   int(r.report.length),
		unvetted: first(b, int(r.report.length)),
		limits:   l,
	}
}

// frameErrorOf returns the error of a frame, with the number that the reason has.
func frameErrorOf(raw *C.capvet_report, reason Reason) *FrameError {
	e := &FrameError{Reason: reason, Required: uint64(raw.input_required), Length: int(raw.length)}
	switch reason {
	case ReasonTooManySegments:
		e.Segments = uint64(raw.detail)
	case ReasonTooLarge:
		e.Words = uint64(raw.detail)
	case ReasonTrailing:
		e.TrailingBytes = uint64(raw.detail)
	}
	return e
}
