// crates/cap_explain/src/sentences.rt without its contracts, by tools/erase: that text is proved, this one is only tested.
//! Each reason of a refusal, as a sentence.

use crate::cap_difference::DifferenceReason;
use crate::cap_explain::landing::Landing;
use crate::cap_explain::target::Target;
use crate::cap_ptr::is_structs;
use crate::cap_spec::{Lax, Reason};

/// The most bytes of a sentence.
pub(crate) const SENTENCE: usize = 120;

/// Why a message is refused, or isn't its own canonical copy.
#[derive(Clone, Copy)]
pub(crate) enum Fault {
    /// It isn't accepted.
    Refused(Reason),
    /// It has 512 segments, and a strict message is demanded.
    ManySegments,
    /// A pointer has a form that common readers reject, and a strict message is demanded.
    NotStrict(Lax),
    /// A pointer overlaps, and an exclusive message is demanded.
    Overlap,
    /// It is accepted, and this is the first difference from its canonical copy.
    Differs(DifferenceReason),
}

/// The fault is one of a pointer.
pub(crate) fn names_pointer(fault: Fault) -> bool {
    match fault {
        Fault::ManySegments => false,
        Fault::Differs(DifferenceReason::Segments | DifferenceReason::Trailing) => false,
        _ => true,
    }
}

/// The pointer itself is reserved, or the word of its landing pad.
fn reserved_sentence(landing: Landing) -> &'static [u8] {
    match landing {
        Landing::One { .. } => {
            b"the low two bits of the landing pad are 3, but it is not a valid capability pointer; the format reserves such words"
        }
        _ =>
            b"the low two bits of the pointer are 3, but it is not a valid capability pointer; the format reserves such words",
    }
}

/// The pointer itself names the missing segment, or the first word of its landing pad.
fn missing_sentence(landing: Landing) -> &'static [u8] {
    match landing {
        Landing::Two { .. } => {
            b"the first word of the landing pad names a segment that the message does not have"
        }
        _ => b"the far pointer names a segment that the message does not have",
    }
}

/// The target begins too early or ends too late.
fn outside_sentence(target: &Option<Target>) -> &'static [u8] {
    match target {
        None => b"the target is not all inside its segment",
        Some(target) => {
            if target.start < u64::from(target.excess) {
                b"the target begins before the start of its segment"
            } else {
                b"the target runs past the end of its segment"
            }
        }
    }
}

/// The target itself is too deep, or for a list of structs one of these.
fn deep_sentence(target: &Option<Target>) -> &'static [u8] {
    match target {
        None => b"the target is at a deeper level than the limit allows",
        Some(target) => {
            if is_structs(target.word) {
                b"the list of structs, or its structs, are at a deeper level than the limit allows"
            } else {
                b"the target is at a deeper level than the limit allows"
            }
        }
    }
}

/// Why the pointer can't be followed, or passes a limit.
fn reason_sentence(reason: Reason, landing: Landing, target: &Option<Target>) -> &'static [u8] {
    match reason {
        Reason::NoRoot => b"segment 0 has no words, so the message has no root pointer",
        Reason::Reserved => reserved_sentence(landing),
        Reason::SegmentMissing => missing_sentence(landing),
        Reason::PadOutside => b"the landing pad is not all inside its segment",
        Reason::PadIsFar => b"the only word of the landing pad is a far pointer again",
        Reason::PadNotFar => {
            b"the first word of the landing pad is not a far pointer to a pad of one word"
        }
        Reason::TagKind => {
            b"the second word of the landing pad is neither a struct pointer nor a list pointer"
        }
        Reason::TagOffset => b"the second word of the landing pad has an offset other than 0",
        Reason::OutOfSegment => outside_sentence(target),
        Reason::CompositeTag => b"the first word of the list of structs is not a struct tag",
        Reason::CompositeOverrun => {
            b"the elements that the tag gives need more words than the list has"
        }
        Reason::DepthLimit => deep_sentence(target),
        Reason::WordLimit => b"the charge up to this pointer and its target is more than the limit",
    }
}

/// Which form common readers reject.
fn lax_sentence(what: Lax) -> &'static [u8] {
    match what {
        Lax::NullPad => b"the only word of the landing pad is null, which common readers reject",
        Lax::EmptySegment => {
            b"the target is in a segment without words, which common readers reject"
        }
        Lax::CapabilityPad => {
            b"the only word of the landing pad is a capability, which common readers reject"
        }
    }
}

/// Why an accepted message isn't its own canonical copy, as a sentence of at most 120 bytes.
pub fn difference_sentence(reason: DifferenceReason) -> &'static [u8] {
    match reason {
        DifferenceReason::Segments => {
            b"the message has more than one segment, and a canonical message has one"
        }
        DifferenceReason::Far => b"the pointer is a far pointer, and a canonical message has none",
        DifferenceReason::Capability => {
            b"the pointer is a capability, so the message has no canonical copy"
        }
        DifferenceReason::EmptyStruct => {
            b"the target is a struct without words, and the pointer of a canonical message to it is fcffffff00000000"
        }
        DifferenceReason::Place => {
            b"the target is not where the canonical copy has it: it is out of preorder, after a gap, or used twice"
        }
        DifferenceReason::Bits => {
            b"bits are set after the last value of the list, and a canonical message has zeros there"
        }
        DifferenceReason::EmptyList => {
            b"the list of structs has no elements, and a canonical message has no sizes in the tag of such a list"
        }
        DifferenceReason::Surplus => {
            b"the list of structs has words after its last element, and a canonical message has none"
        }
        DifferenceReason::DataZero => {
            b"the last data word of the struct, or of all structs of the list, is zero, and a canonical message leaves it out"
        }
        DifferenceReason::PointerNull => {
            b"the last pointer of the struct, or of all structs of the list, is null, and a canonical message leaves it out"
        }
        DifferenceReason::Trailing => {
            b"words come after the last object, and a canonical message ends with it"
        }
    }
}

/// The reason, by the landing pad and the target of the pointer.
pub(crate) fn sentence(fault: Fault, landing: Landing, target: &Option<Target>) -> &'static [u8] {
    match fault {
        Fault::Refused(reason) => reason_sentence(reason, landing, target),
        Fault::ManySegments => b"the message has 512 segments, and common readers take at most 511",
        Fault::NotStrict(what) => lax_sentence(what),
        Fault::Overlap =>
            b"the pointer uses a word twice, the root word, or one that an earlier pointer uses; --exclusive forbids all three",
        Fault::Differs(reason) => difference_sentence(reason),
    }
}
