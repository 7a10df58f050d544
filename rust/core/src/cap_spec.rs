// crates/cap_spec/src/lib.rt without its contracts, by tools/erase: that text is proved, this one is only tested.
//! The enums that the definitions of `specs/` speak of.

/// Why a message is refused, in the order in which the reasons are tried.
///
/// Those from `Reserved` to `CompositeOverrun` are why a pointer can't be followed: the first whose
/// condition holds. A condition speaks of words that exist if no condition before it holds (encoding:
/// Structs, Lists, Inter-Segment Pointers).
#[derive(Clone, Copy, Debug, PartialEq, Eq)]
pub enum Reason {
    /// Segment 0 has no words, so there is no root pointer.
    NoRoot,
    /// The pointer, or the word of its landing pad of one word, is of kind 3 and no capability.
    Reserved,
    /// The segment that a far pointer names, the first word of a landing pad of two words too,
    /// doesn't exist.
    SegmentMissing,
    /// The landing pad isn't all inside its segment.
    PadOutside,
    /// The word of a landing pad of one word is itself a far pointer.
    PadIsFar,
    /// The first word of a landing pad of two words isn't a far pointer to a pad of one word.
    PadNotFar,
    /// The tag of a landing pad of two words is neither a struct's nor a list's.
    TagKind,
    /// The offset in the tag of a landing pad of two words isn't zero.
    TagOffset,
    /// The target begins before its segment or ends after it.
    OutOfSegment,
    /// The tag of a list of structs isn't laid out as a struct pointer.
    CompositeTag,
    /// The elements of a list of structs take more words than the list has.
    CompositeOverrun,
    /// The pointer leads to an object at a level past the depth limit, or to a list whose structs are.
    DepthLimit,
    /// The charges up to this pointer, it included, are more words than the word limit.
    WordLimit,
}

/// One step of a path, to a child by its number from 0.
#[derive(Clone, Copy, Debug, PartialEq, Eq)]
pub enum Step {
    /// A pointer of a struct.
    Ptr(u16),
    /// An element of a list of pointers or of structs.
    Item(u32),
}

/// The first fault of a message, in preorder.
#[derive(Clone, Copy, Debug, PartialEq, Eq)]
pub struct Refusal {
    /// The segment of the pointer that is named, from 0.
    pub segment: u32,
    /// The word of that pointer in its segment, from 0: the pointer word itself, and not its landing
    /// pad.
    pub word: u32,
    /// The first reason that applies there.
    pub reason: Reason,
    /// How many pointers were looked at, null ones and the named one included; 0 with `NoRoot`.
    pub pointers: u64,
}

/// A form of a pointer that common readers reject, at least in part, though the pointer can be
/// followed (profile).
#[derive(Clone, Copy, Debug, PartialEq, Eq)]
pub enum Lax {
    /// A landing pad of one word, which is zero.
    NullPad,
    /// The object is in a segment without words. Only a landing pad of two words leads there.
    EmptySegment,
    /// A landing pad of one word, which is a capability.
    CapabilityPad,
}

/// Why a message isn't strict. The first of these that applies.
#[derive(Clone, Copy, Debug, PartialEq, Eq)]
pub enum StrictRefusal {
    /// It isn't accepted.
    Refused(Refusal),
    /// It has 512 segments, one more than common readers take. No pointer is named: programs print
    /// the place 0:0 and 0 pointers.
    ManySegments,
    /// A pointer has one of the forms that common readers reject.
    Pointer {
        /// The form of the first such pointer in preorder.
        what: Lax,
        /// The segment of that pointer, from 0.
        segment: u32,
        /// The word of that pointer in its segment, from 0: the pointer word itself, and not its
        /// landing pad.
        word: u32,
        /// How many pointers were looked at, null ones and the named one included.
        pointers: u64,
    },
}

/// Why no canonical copy of a message was made.
#[derive(Clone, Copy, Debug, PartialEq, Eq)]
pub enum CanonFault {
    /// A path leads to a capability, the first in preorder by this pointer word (encoding:
    /// Canonicalization).
    HasCapability {
        /// Its segment, counted from 0.
        segment: u32,
        /// Its word in that segment, counted from 0.
        word: u32,
    },
    /// An allocation failed.
    Memory,
}

/// What a node of a message's tree is, with its sizes.
#[derive(Clone, Copy, Debug, PartialEq, Eq)]
pub enum Kind {
    /// Nothing.
    Null,
    /// A capability, by its index.
    Cap { index: u32 },
    /// A struct, by how many words of data and how many pointers it has.
    Struct { data_words: u16, pointers: u16 },
    /// A list of values that aren't pointers, with the code of their size (encoding: Lists).
    Scalars { code: u8, count: u32 },
    /// A list of pointers.
    Pointers { count: u32 },
    /// A list of structs, with the words of data and the pointers of each.
    Structs {
        count: u32,
        data_words: u16,
        pointers: u16,
    },
}
