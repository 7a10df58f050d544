//! The calls of `include/capvet.h`, by rustc, for machines that Rattle's compiler doesn't build for.
//!
//! Each is the call of `capvet-core` that has its name: the proved text without its contracts. The exports of
//! `crates/capvet_c` have slices in their signatures. Rattle passes a slice to C as a pointer and a length, and takes NULL for one
//! without elements. rustc promises neither, so this border is written by hand.
//!
//! All `unsafe` code of the library is here and in `border.rs`. What a call asks of its caller is in the header.
//!
//! A panic would end the process by `abort`, and unwind nothing: the profiles of the workspace say so, and there is no std that
//! could unwind. The proofs of the text say that no call panics.

#![no_std]
#![deny(unsafe_op_in_unsafe_fn)]
#![warn(clippy::undocumented_unsafe_blocks)]
// The header says for each call what its caller has to keep.
#![allow(clippy::missing_safety_doc)]

mod border;

use arrayvec::ArrayVec;
use border::{input, output, NO_NODE, NO_REPORT};
use capvet_core::cap_calls::{
    self as calls, Answer, CallExtent, CallLimits, CallNode, CallReport, CallStep, OverlapPointer,
    Unpacking,
};
use core::mem::MaybeUninit;
use core::panic::PanicInfo;

/// The most segments of a message, and one more.
const MORE_THAN_ALL: usize = 513;

/// `capvet_segment`.
#[repr(C)]
pub struct Segment {
    bytes: *const u8,
    length: usize,
}

// `memcpy`, `memmove`, `memset`, `memcmp` and `abort` come from the C library of the program. Without std nothing else names it.
#[cfg_attr(target_vendor = "apple", link(name = "System"))]
#[cfg_attr(all(unix, not(target_vendor = "apple")), link(name = "c"))]
#[cfg_attr(windows, link(name = "msvcrt"))]
extern "C" {
    fn abort() -> !;
}

#[panic_handler]
fn panic(_: &PanicInfo) -> ! {
    // SAFETY: `abort` of C takes nothing, may be called at any time, and doesn't return.
    unsafe { abort() }
}

#[no_mangle]
pub extern "C" fn capvet_version() -> u32 {
    calls::version()
}

#[no_mangle]
pub extern "C" fn capvet_abi_2() {}

#[no_mangle]
pub extern "C" fn capvet_frame_bound(message_words: u64) -> usize {
    calls::frame_size(message_words)
}

#[no_mangle]
pub extern "C" fn capvet_marks_bound(length: usize) -> usize {
    calls::marks_size(length)
}

#[no_mangle]
pub extern "C" fn capvet_canonical_bound(length: usize) -> usize {
    calls::canonical_size(length)
}

#[no_mangle]
pub extern "C" fn capvet_pack_bound(length: usize) -> usize {
    calls::pack_size(length)
}

#[no_mangle]
pub extern "C" fn capvet_reader_words(report: &CallReport, readings: u32) -> u64 {
    calls::reader_words(report, readings)
}

#[no_mangle]
pub extern "C" fn capvet_reader_nesting(report: &CallReport) -> u32 {
    calls::reader_nesting(report)
}

#[no_mangle]
pub extern "C" fn capvet_limits_default(limits: &mut MaybeUninit<CallLimits>) {
    limits.write(CallLimits::default_limits());
}

#[no_mangle]
pub unsafe extern "C" fn capvet_frame(
    bytes: *const u8,
    length: usize,
    limits: &CallLimits,
    report: &mut MaybeUninit<CallReport>,
) -> u32 {
    // SAFETY: the header asks for `length` bytes at `bytes`, which nobody writes.
    let bytes = unsafe { input(bytes, length) };
    calls::frame(bytes, limits, report.write(NO_REPORT)).number()
}

#[no_mangle]
pub unsafe extern "C" fn capvet_segments(
    bytes: *const u8,
    length: usize,
    limits: &CallLimits,
    extents: *mut CallExtent,
    count: usize,
    required: &mut MaybeUninit<usize>,
    report: &mut MaybeUninit<CallReport>,
) -> u32 {
    // SAFETY: the header asks for both buffers, and that `extents` overlaps no other argument.
    let (bytes, extents) = unsafe { (input(bytes, length), output(extents, count)) };
    calls::segments(
        bytes,
        limits,
        extents,
        required.write(0),
        report.write(NO_REPORT),
    )
    .number()
}

#[no_mangle]
pub unsafe extern "C" fn capvet_vet(
    bytes: *const u8,
    length: usize,
    limits: &CallLimits,
    report: &mut MaybeUninit<CallReport>,
) -> u32 {
    // SAFETY: the header asks for `length` bytes at `bytes`, which nobody writes.
    let bytes = unsafe { input(bytes, length) };
    calls::vet(bytes, limits, report.write(NO_REPORT)).number()
}

#[no_mangle]
pub unsafe extern "C" fn capvet_vet_segments(
    segments: *const Segment,
    count: usize,
    limits: &CallLimits,
    report: &mut MaybeUninit<CallReport>,
) -> u32 {
    // SAFETY: the header asks for `count` segments at `segments`, which nobody writes.
    let segments = unsafe { input(segments, count) };
    // (one more than are allowed is refused as all of them are, but for the number that is reported)
    let mut slices: ArrayVec<&[u8], MORE_THAN_ALL> = ArrayVec::new();
    for segment in segments.iter().take(MORE_THAN_ALL) {
        // SAFETY: the header asks for `length` bytes at `bytes` of each segment, which nobody writes.
        slices.push(unsafe { input(segment.bytes, segment.length) });
    }
    let report = report.write(NO_REPORT);
    let answer = calls::vet_segments(&slices, limits, report);
    if let Answer::TooManySegments = answer {
        report.detail = count as u64;
    }
    answer.number()
}

#[no_mangle]
pub unsafe extern "C" fn capvet_vet_exclusive(
    bytes: *const u8,
    length: usize,
    limits: &CallLimits,
    marks: *mut u64,
    marks_count: usize,
    required: &mut MaybeUninit<usize>,
    report: &mut MaybeUninit<CallReport>,
) -> u32 {
    // SAFETY: the header asks for both buffers, and that `marks` overlaps no other argument.
    let (bytes, marks) = unsafe { (input(bytes, length), output(marks, marks_count)) };
    calls::vet_exclusive(
        bytes,
        limits,
        marks,
        required.write(0),
        report.write(NO_REPORT),
    )
    .number()
}

#[no_mangle]
pub unsafe extern "C" fn capvet_canonical(
    bytes: *const u8,
    length: usize,
    limits: &CallLimits,
    out: *mut u8,
    out_size: usize,
    required: &mut MaybeUninit<usize>,
    report: &mut MaybeUninit<CallReport>,
) -> u32 {
    // SAFETY: the header asks for both buffers, and that `out` overlaps no other argument.
    let (bytes, out) = unsafe { (input(bytes, length), output(out, out_size)) };
    calls::canonical(
        bytes,
        limits,
        out,
        required.write(0),
        report.write(NO_REPORT),
    )
    .number()
}

#[no_mangle]
pub unsafe extern "C" fn capvet_check_canonical(
    bytes: *const u8,
    length: usize,
    limits: &CallLimits,
    report: &mut MaybeUninit<CallReport>,
) -> u32 {
    // SAFETY: the header asks for `length` bytes at `bytes`, which nobody writes.
    let bytes = unsafe { input(bytes, length) };
    calls::check_canonical(bytes, limits, report.write(NO_REPORT)).number()
}

#[no_mangle]
pub unsafe extern "C" fn capvet_check_canonical_words(
    words: *const u8,
    length: usize,
    limits: &CallLimits,
    report: &mut MaybeUninit<CallReport>,
) -> u32 {
    // SAFETY: the header asks for `length` bytes at `words`, which nobody writes.
    let words = unsafe { input(words, length) };
    calls::check_canonical_words(words, limits, report.write(NO_REPORT)).number()
}

#[no_mangle]
pub unsafe extern "C" fn capvet_first_difference(
    bytes: *const u8,
    length: usize,
    limits: &CallLimits,
    report: &mut MaybeUninit<CallReport>,
) -> u32 {
    // SAFETY: the header asks for `length` bytes at `bytes`, which nobody writes.
    let bytes = unsafe { input(bytes, length) };
    calls::first_difference(bytes, limits, report.write(NO_REPORT)).number()
}

#[no_mangle]
pub unsafe extern "C" fn capvet_get(
    bytes: *const u8,
    length: usize,
    limits: &CallLimits,
    path: *const u8,
    path_length: usize,
    node: &mut MaybeUninit<CallNode>,
    report: &mut MaybeUninit<CallReport>,
) -> u32 {
    // SAFETY: the header asks for both buffers, which nobody writes. Its `char` is a byte.
    let (bytes, path) = unsafe { (input(bytes, length), input(path, path_length)) };
    calls::get(
        bytes,
        limits,
        path,
        node.write(NO_NODE),
        report.write(NO_REPORT),
    )
    .number()
}

#[no_mangle]
pub unsafe extern "C" fn capvet_get_range(
    bytes: *const u8,
    length: usize,
    limits: &CallLimits,
    steps: *const CallStep,
    step_count: usize,
    varying: usize,
    nodes: *mut CallNode,
    node_count: usize,
    found: &mut MaybeUninit<usize>,
    report: &mut MaybeUninit<CallReport>,
) -> u32 {
    // SAFETY: the header asks for these buffers, that nobody writes the first two, and that `nodes` overlaps no other argument.
    let (bytes, steps, nodes) = unsafe {
        (
            input(bytes, length),
            input(steps, step_count),
            output(nodes, node_count),
        )
    };
    calls::get_range(
        bytes,
        limits,
        steps,
        varying,
        nodes,
        found.write(0),
        report.write(NO_REPORT),
    )
    .number()
}

#[no_mangle]
pub unsafe extern "C" fn capvet_pointer_path(
    bytes: *const u8,
    length: usize,
    limits: &CallLimits,
    number: u64,
    steps: *mut CallStep,
    step_count: usize,
    required: &mut MaybeUninit<usize>,
    report: &mut MaybeUninit<CallReport>,
) -> u32 {
    // SAFETY: the header asks for both buffers, and that `steps` overlaps no other argument.
    let (bytes, steps) = unsafe { (input(bytes, length), output(steps, step_count)) };
    calls::pointer_path(
        bytes,
        limits,
        number,
        steps,
        required.write(0),
        report.write(NO_REPORT),
    )
    .number()
}

#[no_mangle]
pub unsafe extern "C" fn capvet_earlier_pointer(
    bytes: *const u8,
    length: usize,
    limits: &CallLimits,
    number: u64,
    report: &mut MaybeUninit<CallReport>,
) -> u32 {
    // SAFETY: the header asks for `length` bytes at `bytes`, which nobody writes.
    let bytes = unsafe { input(bytes, length) };
    calls::earlier_pointer(bytes, limits, number, report.write(NO_REPORT)).number()
}

#[no_mangle]
pub unsafe extern "C" fn capvet_explain(
    bytes: *const u8,
    length: usize,
    limits: &CallLimits,
    text: *mut u8,
    text_size: usize,
    required: &mut MaybeUninit<usize>,
    report: &mut MaybeUninit<CallReport>,
) -> u32 {
    // SAFETY: the header asks for both buffers, and that `text` overlaps no other argument. Its `char` is a byte.
    let (bytes, text) = unsafe { (input(bytes, length), output(text, text_size)) };
    calls::explain(
        bytes,
        limits,
        text,
        required.write(0),
        report.write(NO_REPORT),
    )
    .number()
}

#[no_mangle]
pub unsafe extern "C" fn capvet_explain_overlap(
    bytes: *const u8,
    length: usize,
    limits: &CallLimits,
    segment: u32,
    word: u32,
    number: u64,
    text: *mut u8,
    text_size: usize,
    required: &mut MaybeUninit<usize>,
    report: &mut MaybeUninit<CallReport>,
) -> u32 {
    // SAFETY: the header asks for both buffers, and that `text` overlaps no other argument. Its `char` is a byte.
    let (bytes, text) = unsafe { (input(bytes, length), output(text, text_size)) };
    let pointer = OverlapPointer {
        segment,
        word,
        number,
    };
    calls::explain_overlap(
        bytes,
        limits,
        pointer,
        text,
        required.write(0),
        report.write(NO_REPORT),
    )
    .number()
}

#[no_mangle]
pub unsafe extern "C" fn capvet_pack_words(
    bytes: *const u8,
    length: usize,
    out: *mut u8,
    out_size: usize,
    required: &mut MaybeUninit<usize>,
) -> u32 {
    // SAFETY: the header asks for both buffers, and that `out` overlaps no other argument.
    let (bytes, out) = unsafe { (input(bytes, length), output(out, out_size)) };
    calls::pack(bytes, out, required.write(0)).number()
}

#[no_mangle]
pub unsafe extern "C" fn capvet_unpack_words(
    bytes: *const u8,
    length: usize,
    out: *mut u8,
    out_size: usize,
    required: &mut MaybeUninit<usize>,
) -> u32 {
    // SAFETY: the header asks for both buffers, and that `out` overlaps no other argument.
    let (bytes, out) = unsafe { (input(bytes, length), output(out, out_size)) };
    calls::unpack(bytes, out, required.write(0)).number()
}

#[no_mangle]
pub unsafe extern "C" fn capvet_pack_message(
    bytes: *const u8,
    length: usize,
    limits: &CallLimits,
    out: *mut u8,
    out_size: usize,
    required: &mut MaybeUninit<usize>,
    report: &mut MaybeUninit<CallReport>,
) -> u32 {
    // SAFETY: the header asks for both buffers, and that `out` overlaps no other argument.
    let (bytes, out) = unsafe { (input(bytes, length), output(out, out_size)) };
    calls::pack_message(
        bytes,
        limits,
        out,
        required.write(0),
        report.write(NO_REPORT),
    )
    .number()
}

#[no_mangle]
pub unsafe extern "C" fn capvet_unpack_message(
    bytes: *const u8,
    length: usize,
    limits: &CallLimits,
    out: *mut u8,
    out_size: usize,
    state: &mut Unpacking,
    consumed: &mut MaybeUninit<usize>,
    required: &mut MaybeUninit<usize>,
    report: &mut MaybeUninit<CallReport>,
) -> u32 {
    // SAFETY: the header asks for both buffers, and that `out` overlaps no other argument.
    let (bytes, out) = unsafe { (input(bytes, length), output(out, out_size)) };
    let (consumed, required) = (consumed.write(0), required.write(0));
    calls::unpack_message(
        bytes,
        limits,
        out,
        state,
        consumed,
        required,
        report.write(NO_REPORT),
    )
    .number()
}
