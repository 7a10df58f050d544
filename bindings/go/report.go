package capvet

// #include "calls.h"
import "C"

import "fmt"

// Position is a word of a message.
type Position struct {
	Segment uint32 `json:"segment"`
	Word    uint32 `json:"word"`
}

// String returns the form that the program capvet prints, such as "0:7".
func (p Position) String() string {
	return fmt.Sprintf("%d:%d", p.Segment, p.Word)
}

func positionOf(raw *C.capvet_report) Position {
	return Position{Segment: uint32(raw.segment), Word: uint32(raw.word)}
}

// Report is what is known of an accepted message.
type Report struct {
	Length       int    `json:"length"`       // bytes of the frame, table included
	Segments     int    `json:"segments"`     // how many segments
	Words        uint64 `json:"words"`        // words in all segments: what Limits.MessageWords bounds
	Charge       uint64 `json:"charge"`       // words that a full traversal reads; a shared object counts each time
	Depth        uint32 `json:"depth"`        // deepest level of an object; the root object has level 1
	Pointers     uint64 `json:"pointers"`     // pointers, null ones included
	Capabilities uint64 `json:"capabilities"` // capabilities

	first Position
}

// FirstCapability returns the place of the first capability in preorder. ok is false if there is none.
func (r Report) FirstCapability() (p Position, ok bool) {
	return r.first, r.Capabilities > 0
}

// ReaderWords returns the traversal limit, in words, that a reader needs at most for so many readings of a strict message:
// the larger of 3 * Charge + 2 and Words, for each reading.
func (r Report) ReaderWords(readings int) uint64 {
	return uint64(C.capvet_go_reader_words(C.uint64_t(r.Charge), C.uint64_t(r.Words), C.uint32_t(readings)))
}

// ReaderNesting returns the nesting limit that a reader needs at most for a strict message: 2 * Depth + 1.
func (r Report) ReaderNesting() uint32 {
	return uint32(C.capvet_go_reader_nesting(C.uint32_t(r.Depth)))
}

// String returns the line that the program capvet prints after "message N: ".
func (r Report) String() string {
	return fmt.Sprintf("accepted charge %d depth %d pointers %d caps %d", r.Charge, r.Depth, r.Pointers, r.Capabilities)
}

// reportOf returns the report of an accepted frame.
func reportOf(raw *C.capvet_report) Report {
	r := Report{
		Length:       int(raw.length),
		Segments:     int(raw.segments),
		Words:        uint64(raw.words),
		Charge:       uint64(raw.charge),
		Depth:        uint32(raw.depth),
		Pointers:     uint64(raw.pointers),
		Capabilities: uint64(raw.capabilities),
	}
	if r.Capabilities > 0 {
		r.first = positionOf(raw)
	}
	return r
}
