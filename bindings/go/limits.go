package capvet

// #include "calls.h"
import "C"

import "fmt"

// Limits say what a function accepts, and nothing else. A nil *Limits means DefaultLimits. To change a number, begin with
// DefaultLimits: a number that is 0 is the limit 0, and a number above its maximum gives a *LimitsError.
type Limits struct {
	MessageWords uint64 `json:"message_words"` // most words in all segments; by default 8388608 (64 MiB), at most 268435456
	Charge       uint64 `json:"charge"`        // most words that a full traversal reads; by default 8388608, at most 268435456
	Depth        uint32 `json:"depth"`         // deepest level of an object; by default 64, at most 256

	AllowNonstrict bool `json:"allow_nonstrict"` // accept four forms that common readers reject, at least in part
	AllowAmplified bool `json:"allow_amplified"` // a full traversal may read more than 4,096 words above those of the segments
	Exclusive      bool `json:"exclusive"`       // refuse a message that uses a word twice; this allocates one bit for each word
}

// DefaultLimits returns the limits that a nil *Limits means: 64 MiB, as many words of charge, 64 levels, and the strictest
// flags of the library.
func DefaultLimits() Limits {
	return Limits{MessageWords: 8388608, Charge: 8388608, Depth: 64} // CAPVET_LIMITS_INIT
}

// orDefault returns the limits that l means.
func (l *Limits) orDefault() Limits {
	if l == nil {
		return DefaultLimits()
	}
	return *l
}

// form is which bytes a function takes.
type form uint32

const (
	whole  form = C.CAPVET_FORM_WHOLE  // one message and nothing else
	prefix form = C.CAPVET_FORM_PREFIX // bytes that begin with a message
	words  form = C.CAPVET_FORM_WORDS  // the words of one segment, without a table
)

// raw returns the limits as the library has them, for bytes of this form.
func (l *Limits) raw(f form) C.capvet_limits {
	if l == nil {
		defaults := DefaultLimits()
		l = &defaults
	}
	raw := C.capvet_limits{message_words: C.uint64_t(l.MessageWords), charge: C.uint64_t(l.Charge), depth: C.uint32_t(l.Depth),
		form: C.uint32_t(f)}
	if l.AllowNonstrict {
		raw.flags |= C.CAPVET_ALLOW_NONSTRICT
	}
	if l.AllowAmplified {
		raw.flags |= C.CAPVET_ALLOW_AMPLIFIED
	}
	return raw
}

// ofCopies returns limits that accept the canonical words of each message that is accepted within l, as the library has
// them for such words.
func (l *Limits) ofCopies() *Limits {
	copies := l.orDefault()
	copies.AllowAmplified, copies.Exclusive = true, false
	if copies.MessageWords <= copies.Charge {
		copies.MessageWords = copies.Charge + 1
	}
	if copies.MessageWords > C.CAPVET_MAX_MESSAGE_WORDS {
		copies.MessageWords = C.CAPVET_MAX_MESSAGE_WORDS
	}
	return &copies
}

// isAbove reports whether a number is above its maximum.
func (l Limits) isAbove() bool {
	return l.MessageWords > C.CAPVET_MAX_MESSAGE_WORDS || l.Charge > C.CAPVET_MAX_CHARGE || l.Depth > C.CAPVET_MAX_DEPTH
}

// culprit says which number a function does not accept.
func (l Limits) culprit() string {
	const above = "%s is %d, at most %d are allowed"
	switch {
	case l.MessageWords > C.CAPVET_MAX_MESSAGE_WORDS:
		return fmt.Sprintf(above, "MessageWords", l.MessageWords, uint64(C.CAPVET_MAX_MESSAGE_WORDS))
	case l.Charge > C.CAPVET_MAX_CHARGE:
		return fmt.Sprintf(above, "Charge", l.Charge, uint64(C.CAPVET_MAX_CHARGE))
	case l.Depth > C.CAPVET_MAX_DEPTH:
		return fmt.Sprintf(above, "Depth", l.Depth, C.CAPVET_MAX_DEPTH)
	}
	// (a later library may refuse more)
	return fmt.Sprintf("%+v", l)
}
