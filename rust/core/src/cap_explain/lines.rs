// crates/cap_explain/src/lines.rt without its contracts, by tools/erase: that text is proved, this one is only tested.
//! The lines of an explanation.

use crate::cap_buffer::DIGITS;
use crate::cap_explain::explanation::{Explanation, CAPACITY};
use crate::cap_explain::forms::{push_difference, push_form, push_tag, FORM, TAG};
use crate::cap_explain::landing::Landing;
use crate::cap_explain::numbers::{MessageStart, Numbers};
use crate::cap_explain::sentences::{sentence, Fault, SENTENCE};
use crate::cap_explain::target::{list_tag, Target};
use crate::cap_explain::words::first_byte_of;
use crate::cap_frame::Segments;
use crate::cap_ptr::{extent, far_segment, is_structs, list_size, pad, words_of_elements};
use crate::cap_spec::Reason;
use crate::cap_trace::Cycle;

/// The space for one line without the form of a word.
pub(crate) const PLAIN: usize = 140;

/// The space for one line.
pub(crate) const LINE: usize = PLAIN + FORM;

/// The most bytes of the name of a line.
const NAME: usize = 16;

/// The name of the input in which bytes are counted.
fn of_unpacked_input(packed: bool) -> &'static [u8] {
    if packed {
        b" of the unpacked input"
    } else {
        b" of the input"
    }
}

/// Appends which byte of the input a byte of the message is, if the message is one of a stream.
fn push_input_place(text: &mut Explanation, start: Option<MessageStart>, byte: u64) {
    if let Some(start) = start {
        text.push_named(b", byte ", start.byte.saturating_add(byte));
        text.push_text(of_unpacked_input(start.packed));
    }
}

/// Appends where a pointer word is.
pub(crate) fn push_byte_line<M: Segments>(
    text: &mut Explanation,
    message: &M,
    numbers: Numbers,
    segment: u32,
    word: u32,
) {
    let byte = first_byte_of(message, numbers.has_table, segment, word);
    text.push_named(b"  byte ", byte);
    text.push_text(b" of the message");
    push_input_place(text, numbers.start, byte);
    text.push_text(b"\n");
}

/// Appends a word and its form, and ends the line.
fn push_word(text: &mut Explanation, word: u64) {
    text.push_hex(word);
    text.push_text(b" ");
    push_form(text, word);
    text.push_text(b"\n");
}

/// Appends the line of the pointer word.
pub(crate) fn push_pointer_line(text: &mut Explanation, word: u64) {
    text.push_text(b"  pointer ");
    push_word(text, word);
}

/// Appends the line of a word of a landing pad.
fn push_pad_line(text: &mut Explanation, segment: u32, place: u32, word: u64) {
    text.push_text(b"  pad ");
    text.push_place(segment, place as u64);
    text.push_text(b" ");
    push_word(text, word);
}

/// Appends the lines of the landing pad of the pointer `word`.
pub(crate) fn push_landing_lines(text: &mut Explanation, word: u64, landing: Landing) {
    match landing {
        Landing::Near => {}
        Landing::Missing => {}
        Landing::Outside => {}
        Landing::One { word: only } => push_pad_line(text, far_segment(word), pad(word), only),
        Landing::Two { far, tag } => {
            push_pad_line(text, far_segment(word), pad(word), far);
            push_pad_line(text, far_segment(word), pad(word) + 1, tag);
        }
    }
}

/// Appends the place of a word of the target.
fn push_target_place(text: &mut Explanation, target: &Target, word: u64) {
    text.push_number(u64::from(target.segment));
    text.push_text(b":");
    push_difference(text, word, u64::from(target.excess));
}

/// Appends the first and the last word of the target.
fn push_target_range(text: &mut Explanation, target: &Target) {
    push_target_place(text, target, target.start);
    let words = u64::from(extent(target.word));
    if words > 0 {
        text.push_text(b" to ");
        push_target_place(text, target, target.start + words - 1);
    }
}

/// The words of a list of structs include its tag.
fn tag_note(word: u64) -> &'static [u8] {
    if is_structs(word) {
        b" with the tag"
    } else {
        b""
    }
}

/// Appends the line of the target.
fn push_target_line(text: &mut Explanation, target: &Target) {
    text.push_text(b"  target ");
    push_target_range(text, target);
    text.push_named(b", words ", u64::from(extent(target.word)));
    text.push_text(tag_note(target.word));
    text.push_text(b"\n");
}

/// Appends the tag of a list of structs and its fields, and ends the line.
fn push_tag_word(text: &mut Explanation, tag: u64) {
    text.push_hex(tag);
    text.push_text(b" ");
    push_tag(text, tag);
    text.push_text(b"\n");
}

/// Appends the line of the tag of a list of structs, if there is one.
fn push_tag_line(text: &mut Explanation, target: &Target, tag: Option<u64>) {
    if let Some(tag) = tag {
        text.push_text(b"  tag ");
        push_target_place(text, target, target.start);
        text.push_text(b" ");
        push_tag_word(text, tag);
    }
}

/// Appends the lines of the target, if the words of the pointer say where it is.
pub(crate) fn push_target_lines<M: Segments>(
    text: &mut Explanation,
    message: &M,
    target: &Option<Target>,
) {
    if let Some(target) = target {
        push_target_line(text, target);
        push_tag_line(text, target, list_tag(message, target));
    }
}

/// Appends how many words a segment has, or that it doesn't exist, and which do.
fn push_segment_state<M: Segments>(text: &mut Explanation, message: &M, segment: u32) {
    if segment < message.count() {
        text.push_named(b", words ", u64::from(message.len(segment)));
    } else {
        let last = message.count() - 1;
        text.push_named(b", which does not exist, segments 0 to ", u64::from(last));
    }
}

/// Appends the line of the segment that a pointer leads into. A word that leads to nothing, such as
/// a reserved one, gets the line of its own segment.
pub(crate) fn push_segment_line<M: Segments>(text: &mut Explanation, message: &M, segment: u32) {
    text.push_named(b"  leads into segment ", u64::from(segment));
    push_segment_state(text, message, segment);
    text.push_text(b"\n");
}

/// Appends the first level that is deeper than the limit, and the limit.
fn push_level_line(text: &mut Explanation, depth: u32) {
    text.push_named(b"  level ", u64::from(depth) + 1);
    text.push_named(b", limit ", u64::from(depth));
    text.push_text(b"\n");
}

/// Appends the charge up to the pointer, if it is known, and its limit.
fn push_charge_line(text: &mut Explanation, charge: Option<u64>, words: u64) {
    match charge {
        Some(charge) => push_charge_up_to_line(text, charge, words),
        None => push_words_line(text, words),
    }
}

/// Appends this charge, and its limit.
fn push_charge_up_to_line(text: &mut Explanation, charge: u64, words: u64) {
    text.push_named(b"  charge up to here ", charge);
    text.push_named(b" words, limit ", words);
    text.push_text(b" words\n");
}

/// Appends the limit of the charge alone.
fn push_words_line(text: &mut Explanation, words: u64) {
    text.push_named(b"  charge, limit ", words);
    text.push_text(b" words\n");
}

/// Appends the words that the elements of the list of structs `word` need by its tag, and those that
/// it has.
fn push_elements_line(text: &mut Explanation, word: u64, tag: u64) {
    text.push_named(b"  elements need words ", words_of_elements(tag));
    text.push_named(b", list has words ", u64::from(list_size(word)));
    text.push_text(b"\n");
}

/// Appends the same of the list at a target, if there is one.
fn push_overrun_line<M: Segments>(text: &mut Explanation, message: &M, target: &Option<Target>) {
    if let Some(target) = target {
        if let Some(tag) = list_tag(message, target) {
            push_elements_line(text, target.word, tag);
        }
    }
}

/// Appends the line of what is exceeded, if something is: a limit, or the words of a list of structs.
pub(crate) fn push_excess_line<M: Segments>(
    text: &mut Explanation,
    message: &M,
    fault: Fault,
    target: &Option<Target>,
    numbers: Numbers,
) {
    match fault {
        Fault::Refused(Reason::CompositeOverrun) => push_overrun_line(text, message, target),
        Fault::Refused(Reason::DepthLimit) => push_level_line(text, numbers.depth),
        Fault::Refused(Reason::WordLimit) => push_charge_line(text, numbers.charge, numbers.words),
        _ => {}
    }
}

/// Appends where the path reaches a pointer word, and where it returns to it.
fn push_cycle_line(text: &mut Explanation, cycle: Cycle) {
    text.push_text(b"  cycle: the path reaches pointer word ");
    text.push_place(cycle.segment, u64::from(cycle.word));
    text.push_named(b" at level ", u64::from(cycle.from_level));
    text.push_named(b", and returns to it at level ", u64::from(cycle.to_level));
    text.push_text(b"\n");
}

/// Appends the same, if there is a cycle.
pub(crate) fn push_cycle_lines(text: &mut Explanation, cycle: Option<Cycle>) {
    if let Some(cycle) = cycle {
        push_cycle_line(text, cycle);
    }
}

/// Appends the line of the reason.
pub(crate) fn push_reason_line(
    text: &mut Explanation,
    fault: Fault,
    landing: Landing,
    target: &Option<Target>,
) {
    text.push_text(b"  reason ");
    text.push_text(sentence(fault, landing, target));
    text.push_text(b"\n");
}
