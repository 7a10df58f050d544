package capvet

// #include "calls.h"
import "C"

import "unsafe"

// Explain returns why the message is refused, as lines for a log: the path to the pointer, its place in bytes, the pointer
// word with its fields, where it leads, what is exceeded, and the reason as a sentence. They are the lines that the program
// capvet explain writes after the line of the verdict, without the byte in its input. Each begins with two blanks and ends
// with a line feed. The message is vetted again.
//
// For an Overlap the last line names the earlier pointer, if there is one.
func (e *Refusal) Explain() string {
	if e.Reason == ReasonOverlap {
		return e.explainOverlap()
	}
	var text [C.CAPVET_EXPLANATION_BOUND]byte
	r := C.capvet_go_explain(pointer(e.unvetted), C.size_t(len(e.unvetted)), e.limits.raw(whole),
		(*C.char)(unsafe.Pointer(&text[0])), C.size_t(len(text)))
	return string(text[:r.required])
}

// explainOverlap returns the lines on an overlap. The call for other refusals looks for none.
func (e *Refusal) explainOverlap() string {
	var text [C.CAPVET_OVERLAP_BOUND]byte
	r := C.capvet_go_explain_overlap(pointer(e.unvetted), C.size_t(len(e.unvetted)), e.limits.raw(whole),
		C.uint32_t(e.Position.Segment), C.uint32_t(e.Position.Word), C.uint64_t(e.Pointer),
		(*C.char)(unsafe.Pointer(&text[0])), C.size_t(len(text)))
	if r.answer != C.CAPVET_OK {
		return ""
	}
	return string(text[:r.required])
}
