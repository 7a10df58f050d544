package capvet

// #include "calls.h"
import "C"

import "strconv"

// Path returns the path to the pointer that e names, such as "/p0/i7/p2": which field is refused. It is a path as
// Message.Get takes it, and "/" for the root. It is found by one more walk up to this pointer. It is "" if e names no
// pointer.
func (e *Refusal) Path() string {
	return e.pathOf(e.Pointer)
}

// EarlierPath returns the path to the first pointer that uses a word which the pointer of e uses too: the other pointer of
// an overlap. It is found by three more walks up to the pointer.
//
// It is "" if no pointer before that one uses such a word, or if Path returns "".
func (e *Refusal) EarlierPath() string {
	number, _ := e.earlier()
	return e.pathOf(number)
}

// earlier returns the number and the position of the first pointer that uses a word which the pointer of e uses too. The
// number is 0 if there is none.
func (e *Refusal) earlier() (uint64, Position) {
	r := C.capvet_go_earlier_pointer(pointer(e.unvetted), C.size_t(len(e.unvetted)), e.limits.raw(whole), C.uint64_t(e.Pointer))
	if r.answer != C.CAPVET_OK {
		return 0, Position{}
	}
	return uint64(r.report.pointers), positionOf(&r.report)
}

// pathOf returns the path to the pointer of this number in preorder, or "".
func (e *Refusal) pathOf(number uint64) string {
	return pathOf(e.unvetted, &e.limits, number)
}

// pathOf returns the path to the pointer of this number in a message, or "".
func pathOf(b []byte, l *Limits, number uint64) string {
	var steps [C.CAPVET_MAX_DEPTH]C.capvet_step
	r := C.capvet_go_pointer_path(pointer(b), C.size_t(len(b)), l.raw(whole), C.uint64_t(number), &steps[0], C.size_t(len(steps)))
	if r.answer != C.CAPVET_OK {
		return ""
	}
	if r.required == 0 {
		return "/"
	}
	var text []byte
	for _, step := range steps[:r.required] {
		letter := "/p"
		if step.kind == C.CAPVET_STEP_ELEMENT {
			letter = "/i"
		}
		text = strconv.AppendUint(append(text, letter...), uint64(step.number), 10)
	}
	return string(text)
}
