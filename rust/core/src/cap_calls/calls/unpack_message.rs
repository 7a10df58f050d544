// crates/cap_calls/src/calls/unpack_message.rt without its contracts, by tools/erase: that text is proved, this one is only tested.
//! The call that unpacks one message of a packed stream, a piece at a time.

use crate::cap_calls::answer::Answer;
use crate::cap_calls::limits::CallLimits;
use crate::cap_calls::packed_stream::{bytes_required, give, has_word, Given};
use crate::cap_calls::report::CallReport;
use crate::cap_calls::unpacking::Unpacking;
use crate::cap_frame::{front_of, FrontFault, SizeLimit};
use crate::cap_vet::Limits;

/// Unpacks words of a packed stream to `out`, after those that earlier calls wrote there, up to the
/// end of one message (encoding: Packing, Serialization Over a Stream). `bytes` are the packed
/// bytes that were received and not consumed; `consumed` is how many of them are done with. A run
/// of words may go on into the next message; `state` keeps the rest of it. It checks no pointer.
/// Allocates nothing.
///
/// The first of these that applies is returned:
/// - [`Answer::BadLimits`], if the limits are bad or no call leaves this state; `state` and `out`
///   are then unchanged, and no byte is consumed;
/// - [`Answer::TooManySegments`] or [`Answer::TooLarge`], if the message is; a later call returns
///   it again;
/// - [`Answer::Good`], if `out` starts with the whole frame of a message, of `required` bytes;
///   `state.written` is then 0;
/// - [`Answer::BufferTooSmall`], if the next word is there and `out` has no space for it;
///   `required` is then how many bytes the message has at least, as far as its table is there;
/// - [`Answer::NoMessage`], if there are no bytes and no words are pending;
/// - [`Answer::Truncated`], if the bytes end before the next word; `report.input_required` is
///   how many bytes the next call needs at least.
///
/// Words that were unpacked stay in `out` after any other answer than the first. `state.written`
/// counts their bytes, unless the answer is [`Answer::Good`]. The bytes after them are unchanged.
/// The report is written whole.
pub fn unpack_message(
    bytes: &[u8],
    limits: &CallLimits,
    out: &mut [u8],
    state: &mut Unpacking,
    consumed: &mut usize,
    required: &mut usize,
    report: &mut CallReport,
) -> Answer {
    let stop = unpacked(bytes, limits, out, *state);
    *state = stop.state;
    *consumed = stop.consumed;
    *required = stop.required;
    *report = stop.report;
    stop.answer
}

// What a call returns.
#[derive(Clone, Copy)]
struct Stop {
    answer: Answer,
    consumed: usize,
    required: usize,
    state: Unpacking,
    report: CallReport,
}

// How a message goes on of which a buffer holds the first bytes.
#[derive(Clone, Copy)]
pub(crate) enum Stage {
    // More words belong to it, up to `needed` bytes.
    Open { needed: u64 },
    // It is whole, and its segments have this many words together.
    Whole { segments: u32, words: u64 },
    // It has too many segments.
    TooMany { count: u64 },
    // Its segments have too many words.
    TooLarge { words: u64 },
}

// What a call returns, for a buffer that is written.
fn unpacked(bytes: &[u8], limits: &CallLimits, out: &mut [u8], state: Unpacking) -> Stop {
    let size = if let Some(size) = size_limit(limits) {
        size
    } else {
        return bad_stop(state);
    };
    if !is_state(&state, out, size) {
        return bad_stop(state);
    }
    let (given, stage) = fill(bytes, size, out, state);
    stop_of(&bytes[given.taken..], given, stage, state)
}

// What a call returns if the limits are bad, or no call leaves this state.
fn bad_stop(state: Unpacking) -> Stop {
    Stop {
        answer: Answer::BadLimits,
        consumed: 0,
        required: 0,
        state,
        report: CallReport::none(),
    }
}

// The limit of a message, or `None` if the limits are bad.
fn size_limit(limits: &CallLimits) -> Option<SizeLimit> {
    if !limits.has_known_flags() || Limits::new(limits.charge, limits.depth).is_none() {
        return None;
    }
    SizeLimit::new(limits.message_words)
}

// Whether a call may leave this state, for a buffer with these bytes.
fn is_state(state: &Unpacking, out: &[u8], size: SizeLimit) -> bool {
    if !has_rest(state) || state.written % 8 != 0 || state.written > out.len() as u64 {
        return false;
    }
    match stage_of(&out[..state.written as usize], size) {
        Stage::Whole { .. } => false,
        Stage::Open { .. } => true,
        Stage::TooMany { .. } => true,
        Stage::TooLarge { .. } => true,
    }
}

// Whether its run is one, and its reserved fields are 0.
fn has_rest(state: &Unpacking) -> bool {
    state.zero_words <= 255
        && state.literal_words <= 255
        && (state.zero_words == 0 || state.literal_words == 0)
        && state.reserved[0] == 0
        && state.reserved[1] == 0
}

// How a message goes on that begins with these bytes.
fn stage_of(held: &[u8], size: SizeLimit) -> Stage {
    match front_of(held, size) {
        Ok(Some(framed)) => Stage::Whole {
            segments: framed.count(),
            words: framed.words(),
        },
        Ok(None) => Stage::Open { needed: 8 },
        Err(FrontFault::Truncated { needed }) => Stage::Open { needed },
        Err(FrontFault::TooManySegments { count }) => Stage::TooMany { count },
        Err(FrontFault::TooLarge { words }) => Stage::TooLarge { words },
    }
}

// Appends words to the message in the buffer, up to its end, or while there are some and the buffer
// has space.
fn fill(bytes: &[u8], size: SizeLimit, out: &mut [u8], state: Unpacking) -> (Given, Stage) {
    let mut done = Given {
        taken: 0,
        written: state.written as usize,
        zeros: state.zero_words,
        literal: state.literal_words,
    };
    let most = out.len() / 8 * 8;
    'stages: loop {
        let stage = stage_of(&out[..done.written], size);
        let needed = match stage {
            Stage::Open { needed } => needed,
            Stage::Whole { .. } => return (done, stage),
            Stage::TooMany { .. } => return (done, stage),
            Stage::TooLarge { .. } => return (done, stage),
        };
        let end = most.min(needed as usize);
        let next = give(
            &bytes[done.taken..],
            &mut out[done.written..end],
            done.zeros,
            done.literal,
        );
        done = Given {
            taken: done.taken + next.taken,
            written: done.written + next.written,
            ..next
        };
        if (done.written as u64) < needed {
            return (done, stage_of(&out[..done.written], size));
        }
    }
}

// What a call returns at this stage, with these bytes left.
fn stop_of(rest: &[u8], given: Given, stage: Stage, state: Unpacking) -> Stop {
    let stop = Stop {
        answer: Answer::Truncated,
        consumed: given.taken,
        required: 0,
        state: Unpacking {
            written: given.written as u64,
            zero_words: given.zeros,
            literal_words: given.literal,
            ..state
        },
        report: CallReport::none(),
    };
    match stage {
        Stage::Open { needed } => open_stop(rest, given, needed, stop),
        Stage::Whole { segments, words } => whole_stop(given.written, segments, words, stop),
        Stage::TooMany { count } => refused_stop(Answer::TooManySegments, count, stop),
        Stage::TooLarge { words } => refused_stop(Answer::TooLarge, words, stop),
    }
}

// After a whole message of this many bytes, segments and words.
fn whole_stop(bytes: usize, segments: u32, words: u64, stop: Stop) -> Stop {
    Stop {
        answer: Answer::Good,
        required: bytes,
        state: Unpacking {
            written: 0,
            ..stop.state
        },
        report: CallReport {
            length: bytes as u64,
            segments,
            words,
            ..stop.report
        },
        ..stop
    }
}

// At a message that is refused, for this many segments or words.
fn refused_stop(answer: Answer, detail: u64, stop: Stop) -> Stop {
    Stop {
        answer,
        report: CallReport {
            detail,
            ..stop.report
        },
        ..stop
    }
}

// The same if more words belong to the message, up to `needed` bytes.
fn open_stop(rest: &[u8], given: Given, needed: u64, stop: Stop) -> Stop {
    if has_word(rest, given.zeros, given.literal) {
        return Stop {
            answer: Answer::BufferTooSmall,
            required: needed as usize,
            ..stop
        };
    }
    if given.written == 0 && given.literal == 0 && rest.is_empty() {
        return Stop {
            answer: Answer::NoMessage,
            report: CallReport {
                input_required: 1,
                ..stop.report
            },
            ..stop
        };
    }
    Stop {
        report: CallReport {
            input_required: bytes_required(rest, given.literal),
            ..stop.report
        },
        ..stop
    }
}
