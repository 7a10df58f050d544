// crates/cap_calls/src/reader_limits.rt without its contracts, by tools/erase: that text is proved, this one is only tested.
//! The limits that common readers need for a strict message, by its report.

use crate::cap_calls::report::CallReport;

/// The traversal limit that a reader needs for so many readings of the message, in words: the larger of
/// three times its charge and 2 more, and the words of its segments, for each. The greatest `u64`, if
/// that is less. (That common readers need no more is tested.)
pub fn reader_words(report: &CallReport, readings: u32) -> u64 {
    let charged = report.charge.saturating_mul(3).saturating_add(2);
    u64::from(readings).saturating_mul(charged.max(report.words))
}

/// The nesting limit that it needs: twice the depth and 1 more. The greatest `u32`, if that is less.
pub fn reader_nesting(report: &CallReport) -> u32 {
    report.depth.saturating_mul(2).saturating_add(1)
}
