// crates/cap_cmd/src/files.rt without its contracts, by tools/erase: that text is proved, this one is only tested.
//! A job over one of several files: the name of the file is in each line of its texts.

use capvet_core::rattle::Vec;

use crate::cap_cmd::jobs::{Job, Task, Work};
use crate::cap_cmd::marked::MarkedLines;
use crate::cap_cmd::running::run_job_with;
use capvet_core::cap_pack::{Packer, Unpacker};
use capvet_core::cap_words::{
    ByteIn, ByteOut, PlainSink, PlainWords, SliceIn, WordSink, WordSource,
};
use capvet_core::rattle::alloc::{AllocError, Global};

/// The exit status if a device or memory failed.
const FAILED: u8 = 3;

/// The hexadecimal digits.
const DIGITS: [u8; 16] = *b"0123456789abcdef";

/// What is put into each line about a file: its name, and a member of each object of JSON.
pub struct FileMarks {
    /// The mark of each line of the output.
    pub out: Vec<u8>,
    /// The place in the line of the byte that the mark comes in front of.
    pub place: u8,
    /// The mark at the start of each line of the output for faults.
    pub err: Vec<u8>,
}

// Whether a task writes objects of JSON.
fn writes_objects(task: &Task) -> bool {
    match task {
        Task::Under {
            work: Work::Json { .. },
            ..
        } => true,
        Task::One {
            work: Work::Json { .. },
            ..
        } => true,
        _ => false,
    }
}

// Appends a byte as a string of JSON has it.
fn push_json_byte(text: &mut Vec<u8>, byte: u8) -> Result<(), AllocError> {
    if byte == b'"' || byte == b'\\' {
        text.push(b'\\')?;
        text.push(byte)?;
        return Ok(());
    }
    if byte < 32 {
        text.extend_from_slice(b"\\u00")?;
        text.push(DIGITS[usize::from(byte / 16)])?;
        text.push(DIGITS[usize::from(byte % 16)])?;
        return Ok(());
    }
    text.push(byte)?;
    Ok(())
}

// Appends bytes as a string of JSON has them.
fn push_json_bytes(text: &mut Vec<u8>, bytes: &[u8]) -> Result<(), AllocError> {
    let mut count = 0;
    while count < bytes.len() {
        push_json_byte(text, bytes[count])?;
        count += 1;
    }
    Ok(())
}

// The start of a line about a file.
fn name_mark(alloc: Global, name: &str) -> Result<Vec<u8>, AllocError> {
    let mut mark = Vec::new(alloc);
    mark.extend_from_slice(name.as_bytes())?;
    mark.extend_from_slice(b": ")?;
    Ok(mark)
}

// The first member of an object about a file.
fn name_member(alloc: Global, name: &str) -> Result<Vec<u8>, AllocError> {
    let mut mark = Vec::new(alloc);
    mark.extend_from_slice(b"\"file\":\"")?;
    push_json_bytes(&mut mark, name.as_bytes())?;
    mark.extend_from_slice(b"\",")?;
    Ok(mark)
}

/// The marks of the lines that a job writes about a file of this name. A line begins with the name, a
/// colon and a blank. An object of JSON has the name as its first member, `file`.
///
/// # Errors
///
/// - [`AllocError`]: an allocation failed.
pub fn file_marks(alloc: Global, job: &Job, name: &str) -> Result<FileMarks, AllocError> {
    let err = name_mark(alloc, name)?;
    if writes_objects(&job.task) {
        let out = name_member(alloc, name)?;
        return Ok(FileMarks { out, place: 1, err });
    }
    let out = name_mark(alloc, name)?;
    Ok(FileMarks { out, place: 0, err })
}

// The exit status of a job over a file. That of a failed device is also that of an output which has a
// part of a mark at its end.
fn file_status(is_whole: bool, done: u8) -> u8 {
    if is_whole {
        done
    } else {
        FAILED
    }
}

/// Does a job over one of several files, as [`run_job_with`] does it over one. Each line of the output
/// and of the output for faults has its mark. It returns the exit status and both outputs.
///
/// # Status
///
/// That of [`run_job_with`]. It is 3, that of a failed device, if the output ends inside a mark.
pub fn run_file<I: ByteIn, O: ByteOut, E: ByteOut>(
    alloc: Global,
    job: &Job,
    live: bool,
    marks: FileMarks,
    input: I,
    out: O,
    err: E,
) -> (u8, O, E) {
    let out = MarkedLines::new(out, marks.out, marks.place);
    let mut err = MarkedLines::new(err, marks.err, 0);
    let (done, out) = run_job_with(alloc, job, live, input, out, &mut err);
    let status = file_status(out.is_whole(), done);
    (status, out.into_inner(), err.into_inner())
}
