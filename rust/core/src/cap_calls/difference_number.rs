// crates/cap_calls/src/difference_number.rt without its contracts, by tools/erase: that text is proved, this one is only tested.
//! The numbers of the reasons why a message isn't canonical.

use crate::cap_difference::DifferenceReason;

// The number of a reason in the header. It never changes.
pub(crate) fn difference_number(reason: DifferenceReason) -> u64 {
    match reason {
        DifferenceReason::Segments => 1,
        DifferenceReason::Far => 2,
        DifferenceReason::Capability => 3,
        DifferenceReason::EmptyStruct => 4,
        DifferenceReason::Place => 5,
        DifferenceReason::Bits => 6,
        DifferenceReason::EmptyList => 7,
        DifferenceReason::Surplus => 8,
        DifferenceReason::DataZero => 9,
        DifferenceReason::PointerNull => 10,
        DifferenceReason::Trailing => 11,
    }
}
