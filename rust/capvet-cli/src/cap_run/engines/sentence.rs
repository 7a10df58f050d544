// crates/cap_run/src/engines/sentence.rt without its contracts, by tools/erase: that text is proved, this one is only tested.
//! The reason of a refusal as a sentence, from the lines that explain the refusal.

use capvet_core::cap_explain::{explain, Explanation, Numbers};
use capvet_core::cap_frame::Segments;
use capvet_core::cap_spec::StrictRefusal;

/// The lines that explain a refusal, without a path. The last gives its sentence, which no number
/// changes.
pub(crate) fn reason_lines<M: Segments>(message: &M, refusal: &StrictRefusal) -> Explanation {
    let numbers = Numbers {
        words: 0,
        depth: 0,
        charge: None,
        cycle: None,
        has_table: true,
        start: None,
    };
    let mut lines = Explanation::new();
    explain(&mut lines, message, refusal, numbers, None);
    lines
}

/// How many bytes of a line with a reason are before its sentence: those of `  reason `.
const BEFORE: usize = 9;

/// Where the last line of some lines begins, if it gives a reason: at the last two blanks in a row.
fn last_start(lines: &[u8]) -> usize {
    let mut start = lines.len().saturating_sub(2);
    while start > 0 {
        if lines[start - 1] == b' ' && lines[start] == b' ' {
            return start - 1;
        }
        start -= 1;
    }
    start
}

/// The sentence of the last of some lines, if that line gives a reason.
pub(crate) fn last_reason(lines: &[u8]) -> &[u8] {
    let start = last_start(lines) + BEFORE;
    if start >= lines.len() {
        return &[];
    }
    &lines[start..lines.len() - 1]
}
