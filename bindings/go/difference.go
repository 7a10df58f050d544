package capvet

// #include "calls.h"
import "C"

import "fmt"

// DifferenceReason is why a message is not its own canonical form: a number of capvet.h. Later versions of the library may add
// some.
type DifferenceReason uint32

// The reasons of a Difference, in the order in which they are tried.
const (
	DifferenceSegments    DifferenceReason = C.CAPVET_DIFFERENCE_SEGMENTS     // the message has more than one segment
	DifferenceFar         DifferenceReason = C.CAPVET_DIFFERENCE_FAR          // the pointer is far
	DifferenceCapability  DifferenceReason = C.CAPVET_DIFFERENCE_CAPABILITY   // the pointer is a capability: there is no canonical form
	DifferenceEmptyStruct DifferenceReason = C.CAPVET_DIFFERENCE_EMPTY_STRUCT // a pointer to a struct without words has another offset than -1
	DifferencePlace       DifferenceReason = C.CAPVET_DIFFERENCE_PLACE        // the object is out of preorder, after a gap, or used twice
	DifferenceBits        DifferenceReason = C.CAPVET_DIFFERENCE_BITS         // bits are set after the last value of a list
	DifferenceEmptyList   DifferenceReason = C.CAPVET_DIFFERENCE_EMPTY_LIST   // a list of structs has no elements, and sizes in its tag
	DifferenceSurplus     DifferenceReason = C.CAPVET_DIFFERENCE_SURPLUS      // a list of structs has words after its last element
	DifferenceDataZero    DifferenceReason = C.CAPVET_DIFFERENCE_DATA_ZERO    // the last data word of a struct is zero, or that of all of a list
	DifferencePointerNull DifferenceReason = C.CAPVET_DIFFERENCE_POINTER_NULL // the last pointer of a struct is null, or that of all of a list
	DifferenceTrailing    DifferenceReason = C.CAPVET_DIFFERENCE_TRAILING     // words of the segment come after the last object
)

// String returns the name that the program capvet prints, such as "Place". It is "Unknown" for the zero DifferenceReason, which
// is none, and for a reason of a later library.
func (r DifferenceReason) String() string {
	return C.GoString(C.capvet_difference_name(C.uint64_t(r)))
}

// MarshalText returns the name of the reason.
func (r DifferenceReason) MarshalText() ([]byte, error) {
	return []byte(r.String()), nil
}

// UnmarshalText sets the reason of a name. The error says that there is no such reason.
func (r *DifferenceReason) UnmarshalText(name []byte) error {
	for number := DifferenceSegments; number <= DifferenceTrailing; number++ {
		if number.String() == string(name) {
			*r = number
			return nil
		}
	}
	return fmt.Errorf("capvet: no reason of a difference has the name %q", name)
}

// Difference is why a message is not its own canonical form: the first pointer in preorder that is not as the canonical form has
// it, or whose object is not.
type Difference struct {
	Reason   DifferenceReason
	Position Position // of the pointer; Trailing: the first word after all objects; Segments: 0:0
	Pointers uint64   // the number of the pointer in preorder, from 1; Trailing: how many pointers there are; Segments: 0

	message []byte
}

// String returns a text such as "not canonical: Place at 0:2".
func (d Difference) String() string {
	return fmt.Sprintf("not canonical: %v at %v", d.Reason, d.Position)
}

// Path returns the path to the pointer that d names, such as "/p0/i7/p2": which field differs. It is a path as Message.Get takes
// it, and "/" for the root. It is found by one more walk up to this pointer, in the bytes of the message. It is "" for
// DifferenceSegments and DifferenceTrailing, which name no pointer.
func (d Difference) Path() string {
	if d.Reason == DifferenceSegments || d.Reason == DifferenceTrailing {
		return ""
	}
	return pathOf(d.message, greatest, d.Pointers)
}

// FirstDifference returns why the message is not its own canonical form. ok is false if it is, and for a zero Message.
//
// It takes the time of IsCanonical, and for a message that is not canonical that of another walk up to the pointer. It allocates
// nothing.
func (m Message) FirstDifference() (d Difference, ok bool) {
	r := C.capvet_go_first_difference(pointer(m.bytes), C.size_t(len(m.bytes)), greatest.raw(whole))
	if r.answer != C.CAPVET_NOT_CANONICAL {
		return Difference{}, false
	}
	return Difference{
		Reason:   DifferenceReason(r.report.detail),
		Position: positionOf(&r.report),
		Pointers: uint64(r.report.pointers),
		message:  m.bytes,
	}, true
}
