// crates/cap_vet/src/nodes/spot.rt without its contracts, by tools/erase: that text is proved, this one is only tested.
//! Where a node is in its message.

/// A pointer word, or an element of a list of structs.
#[derive(Clone, Copy)]
pub(crate) enum Spot {
    Word {
        segment: u32,
        word: u32,
    },
    Element {
        segment: u32,
        start: u32,
        data_words: u16,
        pointers: u16,
    },
}
