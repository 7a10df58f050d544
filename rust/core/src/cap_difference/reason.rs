// crates/cap_difference/src/reason.rt without its contracts, by tools/erase: that text is proved, this one is only tested.
//! The reasons why a message isn't canonical.

/// Why a message isn't as its canonical copy has it, in the order in which the reasons are tried.
#[derive(Clone, Copy, Debug, PartialEq, Eq)]
pub enum DifferenceReason {
    /// The message has more than one segment.
    Segments,
    /// The pointer is far.
    Far,
    /// The pointer leads to a capability, so there is no canonical copy.
    Capability,
    /// The pointer leads to a struct without words, and its offset isn't -1.
    EmptyStruct,
    /// The object doesn't begin where the copy has the next one: it is out of preorder, after a gap, or
    /// used twice.
    Place,
    /// Bits are set after the last value of a list.
    Bits,
    /// A list of structs has no elements, and sizes in its tag.
    EmptyList,
    /// A list of structs has words after its last element.
    Surplus,
    /// The last data word of a struct is zero, or that of all structs of a list.
    DataZero,
    /// The last pointer of a struct denotes null, or that of all structs of a list.
    PointerNull,
    /// Words come after the last object.
    Trailing,
}
