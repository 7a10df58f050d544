package capvet

// #include "calls.h"
import "C"

import "fmt"

// Reason is why bytes are not accepted: the number of an answer in capvet.h. Later versions of the library may add some.
//
// Each FrameError and each Refusal wraps its Reason, so errors.Is(err, ReasonDepthLimit) asks for one, and errors.As finds it.
type Reason uint32

// The reasons of a FrameError.
const (
	ReasonNoMessage       Reason = C.CAPVET_NO_MESSAGE        // there are no bytes: the regular end of a stream
	ReasonTooManySegments Reason = C.CAPVET_TOO_MANY_SEGMENTS // more than 512
	ReasonTooLarge        Reason = C.CAPVET_TOO_LARGE         // more words than Limits.MessageWords
	ReasonTruncated       Reason = C.CAPVET_TRUNCATED         // more bytes are required
	ReasonTrailing        Reason = C.CAPVET_TRAILING          // bytes follow the message
	ReasonBadSegment      Reason = C.CAPVET_BAD_SEGMENT       // a segment is not of whole words: see VetSegments
)

// The reasons of a Refusal.
const (
	ReasonOverlap       Reason = C.CAPVET_OVERLAP        // a word is used twice; only Limits.Exclusive looks for it
	ReasonNullPad       Reason = C.CAPVET_NULL_PAD       // not strict: a one-word landing pad of zeros
	ReasonEmptySegment  Reason = C.CAPVET_EMPTY_SEGMENT  // not strict: a two-word landing pad leads into a segment without words
	ReasonCapabilityPad Reason = C.CAPVET_CAPABILITY_PAD // not strict: a one-word landing pad that is a capability
	ReasonManySegments  Reason = C.CAPVET_MANY_SEGMENTS  // not strict: 512 segments; it is about no pointer

	ReasonNoRoot           Reason = C.CAPVET_NO_ROOT           // the first segment has no words
	ReasonReserved         Reason = C.CAPVET_RESERVED          // a pointer of a kind that the format reserves
	ReasonSegmentMissing   Reason = C.CAPVET_SEGMENT_MISSING   // a far pointer to a segment that does not exist
	ReasonPadOutside       Reason = C.CAPVET_PAD_OUTSIDE       // a landing pad outside its segment
	ReasonPadIsFar         Reason = C.CAPVET_PAD_IS_FAR        // a one-word landing pad that is a far pointer
	ReasonPadNotFar        Reason = C.CAPVET_PAD_NOT_FAR       // a two-word landing pad that does not start with a far pointer
	ReasonTagKind          Reason = C.CAPVET_TAG_KIND          // the tag of a two-word landing pad is no struct and no list
	ReasonTagOffset        Reason = C.CAPVET_TAG_OFFSET        // the offset in that tag is not 0
	ReasonOutOfSegment     Reason = C.CAPVET_OUT_OF_SEGMENT    // an object that is not inside its segment
	ReasonCompositeTag     Reason = C.CAPVET_COMPOSITE_TAG     // the tag of a list of structs is not a struct's
	ReasonCompositeOverrun Reason = C.CAPVET_COMPOSITE_OVERRUN // the elements of a list of structs exceed the list's size
	ReasonDepthLimit       Reason = C.CAPVET_DEPTH_LIMIT       // an object with a level above Limits.Depth
	ReasonWordLimit        Reason = C.CAPVET_WORD_LIMIT        // the charge exceeds its limit; or the message is amplified
)

// String returns the name that the program capvet prints, such as "DepthLimit". It is "Unknown" for the zero Reason, which is
// none, and for a reason of a later library.
func (r Reason) String() string {
	if r == 0 {
		return "Unknown"
	}
	return C.GoString(C.capvet_answer_name(C.capvet_answer(r)))
}

// Error returns the name of the reason.
func (r Reason) Error() string {
	return r.String()
}

// MarshalText returns the name of the reason.
func (r Reason) MarshalText() ([]byte, error) {
	return []byte(r.String()), nil
}

// UnmarshalText sets the reason of a name. The error says that there is no such reason.
func (r *Reason) UnmarshalText(name []byte) error {
	for number := ReasonNoMessage; number <= ReasonWordLimit; number++ {
		if text := number.String(); text == string(name) && text != "Unknown" {
			*r = number
			return nil
		}
	}
	return fmt.Errorf("capvet: no reason has the name %q", name)
}
