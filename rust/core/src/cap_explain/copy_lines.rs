// crates/cap_explain/src/copy_lines.rt without its contracts, by tools/erase: that text is proved, this one is only tested.
//! The line of what a canonical copy has at the first difference.

use crate::cap_difference::{Difference, DifferenceReason};
use crate::cap_explain::copied::{differing_word, Copied, DifferingWord};
use crate::cap_explain::explanation::{Explanation, CAPACITY};
use crate::cap_explain::landing::landing_of;
use crate::cap_explain::lines::PLAIN;
use crate::cap_explain::target::target_of;
use crate::cap_explain::words::word_of;
use crate::cap_frame::Segments;

/// Appends what a copy has in the place of a word.
fn push_copied(text: &mut Explanation, copied: Copied) {
    match copied {
        Copied::Word(word) => {
            text.push_text(b", the copy has ");
            text.push_hex(word);
        }
        Copied::Nothing => text.push_text(b", the copy has none"),
        Copied::NoCopy => text.push_text(b", there is no copy"),
    }
}

/// Appends the line of a word, with what a copy has in its place.
fn push_word_line(text: &mut Explanation, differing: DifferingWord, value: u64) {
    text.push_text(b"  word ");
    text.push_place(differing.segment, differing.word);
    text.push_text(b" ");
    text.push_hex(value);
    push_copied(text, differing.copied);
    text.push_text(b"\n");
}

/// Appends the same of a word that the message has, if there is one.
fn push_differing_line<M: Segments>(
    text: &mut Explanation,
    message: &M,
    differing: Option<DifferingWord>,
) {
    if let Some(differing) = differing {
        if let Some(value) = word_of(message, differing.segment, differing.word) {
            push_word_line(text, differing, value);
        }
    }
}

/// Appends how many segments the message has, and how many a copy has.
fn push_segments_line<M: Segments>(text: &mut Explanation, message: &M) {
    text.push_named(b"  segments ", u64::from(message.count()));
    text.push_text(b", the copy has 1");
    text.push_text(b"\n");
}

/// Appends how many words segment 0 has, and how many a copy has.
fn push_words_line<M: Segments>(text: &mut Explanation, message: &M, end: u64) {
    text.push_named(b"  words ", u64::from(message.len(0)));
    text.push_named(b", the copy has ", end);
    text.push_text(b"\n");
}

/// Appends the line of the word that differs, at the pointer word that is named or in its object.
fn push_pointed_line<M: Segments>(text: &mut Explanation, message: &M, difference: &Difference) {
    if let Some(word) = word_of(message, difference.segment, u64::from(difference.word)) {
        let landing = landing_of(message, word);
        let target = target_of(difference.segment, difference.word, word, landing);
        let differing = differing_word(message, difference, word, &target);
        push_differing_line(text, message, differing);
    }
}

/// Appends the line of what the message has at its first difference, and what a copy has there: a word
/// of each, or the counts of segments or of words.
pub(crate) fn push_copy_lines<M: Segments>(
    text: &mut Explanation,
    message: &M,
    difference: &Difference,
) {
    match difference.reason {
        DifferenceReason::Segments => push_segments_line(text, message),
        DifferenceReason::Trailing => push_words_line(text, message, difference.end),
        _ => push_pointed_line(text, message, difference),
    }
}
