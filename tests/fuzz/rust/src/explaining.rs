//! Explanations, beside the text that the proved library writes.

use capvet::{Limits, NotAccepted, Refusal, VetError};

// Numbers of `include/capvet.h`.
const OK: u32 = 0;
// The last of the answers about frames and calls.
const LAST_WITHOUT_VERDICT: u32 = 15;
const BOUND: usize = 6144;

/// `capvet_limits`.
#[repr(C)]
struct RawLimits {
    message_words: u64,
    charge: u64,
    depth: u32,
    flags: u32,
    form: u32,
    padding: u32,
    reserved: [u64; 6],
}

extern "C" {
    // (a `capvet_report` has the size of fifteen numbers)
    fn capvet_explain(
        bytes: *const u8,
        length: usize,
        limits: *const RawLimits,
        text: *mut u8,
        text_size: usize,
        required: *mut usize,
        report: *mut [u64; 15],
    ) -> u32;
}

/// The answer of the proved library, and its text.
fn by_library(bytes: &[u8], limits: Limits) -> (u32, Vec<u8>) {
    let flag = |bit: u32, is_set: bool| u32::from(is_set) << bit;
    let raw = RawLimits {
        message_words: limits.message_words(),
        charge: limits.charge(),
        depth: limits.depth(),
        flags: flag(0, limits.allow_nonstrict()) | flag(1, limits.allow_amplified()),
        form: 0,
        padding: 0,
        reserved: [0; 6],
    };
    let (mut text, mut required, mut report) = (vec![0; BOUND], 0, [0; 15]);
    // SAFETY: the declaration is the header's. `bytes` is borrowed for the call, and the others are locals.
    let answer = unsafe {
        capvet_explain(
            bytes.as_ptr(),
            bytes.len(),
            &raw,
            text.as_mut_ptr(),
            text.len(),
            &mut required,
            &mut report,
        )
    };
    text.truncate(required);
    (answer, text)
}

/// The lines begin with the path of the refusal, if it names a pointer.
fn check_path_line(bytes: &[u8], limits: Limits, refusal: &Refusal, lines: &str) {
    let path = refusal.path(bytes, limits);
    assert_eq!(path.is_some(), refusal.pointer.is_some());
    if let Some(path) = path {
        assert!(lines.starts_with(&format!("  path {}\n", shown(&path.to_string()))));
    }
}

/// A path as a line has it: of more than 24 steps the first and the last 8.
fn shown(path: &str) -> String {
    let steps: Vec<&str> = path.split('/').skip(1).collect();
    if steps.len() <= 24 {
        return path.to_string();
    }
    let (first, last) = (steps[..8].join("/"), steps[steps.len() - 8..].join("/"));
    format!("/{first}/.. {} steps ../{last}", steps.len() - 16)
}

/// The bytes at the place of the pointer are those of its word.
fn check_place(bytes: &[u8], lines: &str) {
    let after = |name: &str| Some(lines.split_once(name)?.1);
    let place = match after("\n  byte ") {
        Some(place) => place,
        None => return,
    };
    let at: usize = place.split_once(' ').unwrap().0.parse().unwrap();
    let word: String = bytes[at..at + 8]
        .iter()
        .map(|byte| format!("{byte:02x}"))
        .collect();
    assert!(after("\n  pointer ").unwrap().starts_with(&word));
}

/// What isn't accepted is explained, and nothing else is. The lines are those of the proved library.
pub fn explain(bytes: &[u8], limits: Limits) {
    let (answer, text) = by_library(bytes, limits);
    match capvet::vet(bytes, limits) {
        Ok(_) => assert_eq!((answer, text.len()), (OK, 0)),
        Err(VetError::Refused(refusal)) => {
            let lines = refusal.explain(bytes, limits).to_string();
            assert!(answer > LAST_WITHOUT_VERDICT);
            assert_eq!(text, lines.as_bytes());
            assert_ne!(lines, "");
            check_path_line(bytes, limits, &refusal, &lines);
            check_place(bytes, &lines);
        }
        Err(_) => assert!(answer != OK && answer <= LAST_WITHOUT_VERDICT),
    }
}

/// A message that isn't accepted is explained by its own bytes.
pub fn explain_kept(error: &NotAccepted, limits: Limits) {
    let lines = error.explain().to_string();
    assert_eq!(format!("{:?}", error.explain()), lines);
    match &error.error {
        VetError::Refused(refusal) => {
            assert_eq!(error.path(), refusal.path(&error.unvetted, limits));
            let expected = refusal.explain(&error.unvetted, limits).to_string();
            assert_eq!(lines, expected);
        }
        _ => assert_eq!((lines.lines().count(), error.path()), (1, None)),
    }
}
