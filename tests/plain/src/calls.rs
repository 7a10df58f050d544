//! The calls of the library, each by two makes: the plain one, and the proved archive.

use capvet_core::cap_calls as plain;
pub use capvet_core::cap_calls::{CallExtent, CallLimits, CallNode, CallReport, CallStep, OverlapPointer, Unpacking};

/// The calls of `include/capvet.h`, over slices. Each returns the number of its answer.
pub trait Calls {
    fn frame(bytes: &[u8], limits: &CallLimits, report: &mut CallReport) -> u32;
    fn vet(bytes: &[u8], limits: &CallLimits, report: &mut CallReport) -> u32;
    fn vet_exclusive(bytes: &[u8], limits: &CallLimits, marks: &mut [u64], required: &mut usize, report: &mut CallReport) -> u32;
    fn vet_segments(segments: &[&[u8]], limits: &CallLimits, report: &mut CallReport) -> u32;
    fn segments(
        bytes: &[u8],
        limits: &CallLimits,
        extents: &mut [CallExtent],
        required: &mut usize,
        report: &mut CallReport,
    ) -> u32;
    fn check_canonical(bytes: &[u8], limits: &CallLimits, report: &mut CallReport) -> u32;
    fn check_canonical_words(words: &[u8], limits: &CallLimits, report: &mut CallReport) -> u32;
    fn first_difference(bytes: &[u8], limits: &CallLimits, report: &mut CallReport) -> u32;
    fn reader_words(report: &CallReport, readings: u32) -> u64;
    fn reader_nesting(report: &CallReport) -> u32;
    fn canonical(bytes: &[u8], limits: &CallLimits, out: &mut [u8], required: &mut usize, report: &mut CallReport) -> u32;
    fn get(bytes: &[u8], limits: &CallLimits, path: &[u8], node: &mut CallNode, report: &mut CallReport) -> u32;
    fn get_range(
        bytes: &[u8],
        limits: &CallLimits,
        steps: &[CallStep],
        varying: usize,
        nodes: &mut [CallNode],
        found: &mut usize,
        report: &mut CallReport,
    ) -> u32;
    fn pointer_path(
        bytes: &[u8],
        limits: &CallLimits,
        number: u64,
        steps: &mut [CallStep],
        required: &mut usize,
        report: &mut CallReport,
    ) -> u32;
    fn earlier_pointer(bytes: &[u8], limits: &CallLimits, number: u64, report: &mut CallReport) -> u32;
    fn explain(bytes: &[u8], limits: &CallLimits, text: &mut [u8], required: &mut usize, report: &mut CallReport) -> u32;
    fn explain_overlap(
        bytes: &[u8],
        limits: &CallLimits,
        pointer: OverlapPointer,
        text: &mut [u8],
        required: &mut usize,
        report: &mut CallReport,
    ) -> u32;
    fn pack(bytes: &[u8], out: &mut [u8], required: &mut usize) -> u32;
    fn unpack(bytes: &[u8], out: &mut [u8], required: &mut usize) -> u32;
    fn pack_message(bytes: &[u8], limits: &CallLimits, out: &mut [u8], required: &mut usize, report: &mut CallReport) -> u32;
    fn unpack_message(
        bytes: &[u8],
        limits: &CallLimits,
        out: &mut [u8],
        state: &mut Unpacking,
        consumed: &mut usize,
        required: &mut usize,
        report: &mut CallReport,
    ) -> u32;
    /// The four bounds, of a number of words or bytes.
    fn bounds(number: u64) -> [u64; 4];
}

/// What rustc makes of the text without contracts.
pub struct Plain;

impl Calls for Plain {
    fn frame(bytes: &[u8], limits: &CallLimits, report: &mut CallReport) -> u32 {
        plain::frame(bytes, limits, report).number()
    }
    fn vet(bytes: &[u8], limits: &CallLimits, report: &mut CallReport) -> u32 {
        plain::vet(bytes, limits, report).number()
    }
    fn vet_exclusive(bytes: &[u8], limits: &CallLimits, marks: &mut [u64], required: &mut usize, report: &mut CallReport) -> u32 {
        plain::vet_exclusive(bytes, limits, marks, required, report).number()
    }
    fn vet_segments(segments: &[&[u8]], limits: &CallLimits, report: &mut CallReport) -> u32 {
        plain::vet_segments(segments, limits, report).number()
    }
    fn segments(
        bytes: &[u8],
        limits: &CallLimits,
        extents: &mut [CallExtent],
        required: &mut usize,
        report: &mut CallReport,
    ) -> u32 {
        plain::segments(bytes, limits, extents, required, report).number()
    }
    fn check_canonical(bytes: &[u8], limits: &CallLimits, report: &mut CallReport) -> u32 {
        plain::check_canonical(bytes, limits, report).number()
    }
    fn check_canonical_words(words: &[u8], limits: &CallLimits, report: &mut CallReport) -> u32 {
        plain::check_canonical_words(words, limits, report).number()
    }
    fn first_difference(bytes: &[u8], limits: &CallLimits, report: &mut CallReport) -> u32 {
        plain::first_difference(bytes, limits, report).number()
    }
    fn reader_words(report: &CallReport, readings: u32) -> u64 {
        plain::reader_words(report, readings)
    }
    fn reader_nesting(report: &CallReport) -> u32 {
        plain::reader_nesting(report)
    }
    fn canonical(bytes: &[u8], limits: &CallLimits, out: &mut [u8], required: &mut usize, report: &mut CallReport) -> u32 {
        plain::canonical(bytes, limits, out, required, report).number()
    }
    fn get(bytes: &[u8], limits: &CallLimits, path: &[u8], node: &mut CallNode, report: &mut CallReport) -> u32 {
        plain::get(bytes, limits, path, node, report).number()
    }
    fn get_range(
        bytes: &[u8],
        limits: &CallLimits,
        steps: &[CallStep],
        varying: usize,
        nodes: &mut [CallNode],
        found: &mut usize,
        report: &mut CallReport,
    ) -> u32 {
        plain::get_range(bytes, limits, steps, varying, nodes, found, report).number()
    }
    fn pointer_path(
        bytes: &[u8],
        limits: &CallLimits,
        number: u64,
        steps: &mut [CallStep],
        required: &mut usize,
        report: &mut CallReport,
    ) -> u32 {
        plain::pointer_path(bytes, limits, number, steps, required, report).number()
    }
    fn earlier_pointer(bytes: &[u8], limits: &CallLimits, number: u64, report: &mut CallReport) -> u32 {
        plain::earlier_pointer(bytes, limits, number, report).number()
    }
    fn explain(bytes: &[u8], limits: &CallLimits, text: &mut [u8], required: &mut usize, report: &mut CallReport) -> u32 {
        plain::explain(bytes, limits, text, required, report).number()
    }
    fn explain_overlap(
        bytes: &[u8],
        limits: &CallLimits,
        pointer: OverlapPointer,
        text: &mut [u8],
        required: &mut usize,
        report: &mut CallReport,
    ) -> u32 {
        plain::explain_overlap(bytes, limits, pointer, text, required, report).number()
    }
    fn pack(bytes: &[u8], out: &mut [u8], required: &mut usize) -> u32 {
        plain::pack(bytes, out, required).number()
    }
    fn unpack(bytes: &[u8], out: &mut [u8], required: &mut usize) -> u32 {
        plain::unpack(bytes, out, required).number()
    }
    fn pack_message(bytes: &[u8], limits: &CallLimits, out: &mut [u8], required: &mut usize, report: &mut CallReport) -> u32 {
        plain::pack_message(bytes, limits, out, required, report).number()
    }
    fn unpack_message(
        bytes: &[u8],
        limits: &CallLimits,
        out: &mut [u8],
        state: &mut Unpacking,
        consumed: &mut usize,
        required: &mut usize,
        report: &mut CallReport,
    ) -> u32 {
        plain::unpack_message(bytes, limits, out, state, consumed, required, report).number()
    }
    fn bounds(number: u64) -> [u64; 4] {
        let length = number as usize;
        [
            plain::frame_size(number) as u64,
            plain::marks_size(length) as u64,
            plain::canonical_size(length) as u64,
            plain::pack_size(length) as u64,
        ]
    }
}

#[cfg(feature = "proved")]
pub use proved::Proved;

#[cfg(feature = "proved")]
mod proved {
    use super::{CallExtent, CallLimits, CallNode, CallReport, CallStep, Calls, OverlapPointer, Unpacking};

    /// The proved archive.
    pub struct Proved;

    #[repr(C)]
    struct Segment {
        bytes: *const u8,
        length: usize,
    }

    // The declarations of `include/capvet.h`. A slice is an address and a length.
    extern "C" {
        fn capvet_frame(bytes: *const u8, length: usize, limits: &CallLimits, report: &mut CallReport) -> u32;
        fn capvet_vet(bytes: *const u8, length: usize, limits: &CallLimits, report: &mut CallReport) -> u32;
        fn capvet_vet_exclusive(
            bytes: *const u8,
            length: usize,
            limits: &CallLimits,
            marks: *mut u64,
            count: usize,
            required: &mut usize,
            report: &mut CallReport,
        ) -> u32;
        fn capvet_vet_segments(segments: *const Segment, count: usize, limits: &CallLimits, report: &mut CallReport) -> u32;
        fn capvet_segments(
            bytes: *const u8,
            length: usize,
            limits: &CallLimits,
            extents: *mut CallExtent,
            count: usize,
            required: &mut usize,
            report: &mut CallReport,
        ) -> u32;
        fn capvet_check_canonical(bytes: *const u8, length: usize, limits: &CallLimits, report: &mut CallReport) -> u32;
        fn capvet_check_canonical_words(words: *const u8, length: usize, limits: &CallLimits, report: &mut CallReport) -> u32;
        fn capvet_first_difference(bytes: *const u8, length: usize, limits: &CallLimits, report: &mut CallReport) -> u32;
        fn capvet_reader_words(report: &CallReport, readings: u32) -> u64;
        fn capvet_reader_nesting(report: &CallReport) -> u32;
        fn capvet_canonical(
            bytes: *const u8,
            length: usize,
            limits: &CallLimits,
            out: *mut u8,
            size: usize,
            required: &mut usize,
            report: &mut CallReport,
        ) -> u32;
        fn capvet_get(
            bytes: *const u8,
            length: usize,
            limits: &CallLimits,
            path: *const u8,
            path_length: usize,
            node: &mut CallNode,
            report: &mut CallReport,
        ) -> u32;
        fn capvet_get_range(
            bytes: *const u8,
            length: usize,
            limits: &CallLimits,
            steps: *const CallStep,
            count: usize,
            varying: usize,
            nodes: *mut CallNode,
            node_count: usize,
            found: &mut usize,
            report: &mut CallReport,
        ) -> u32;
        fn capvet_pointer_path(
            bytes: *const u8,
            length: usize,
            limits: &CallLimits,
            number: u64,
            steps: *mut CallStep,
            count: usize,
            required: &mut usize,
            report: &mut CallReport,
        ) -> u32;
        fn capvet_earlier_pointer(
            bytes: *const u8,
            length: usize,
            limits: &CallLimits,
            number: u64,
            report: &mut CallReport,
        ) -> u32;
        fn capvet_explain(
            bytes: *const u8,
            length: usize,
            limits: &CallLimits,
            text: *mut u8,
            size: usize,
            required: &mut usize,
            report: &mut CallReport,
        ) -> u32;
        fn capvet_explain_overlap(
            bytes: *const u8,
            length: usize,
            limits: &CallLimits,
            segment: u32,
            word: u32,
            number: u64,
            text: *mut u8,
            size: usize,
            required: &mut usize,
            report: &mut CallReport,
        ) -> u32;
        fn capvet_pack_words(bytes: *const u8, length: usize, out: *mut u8, size: usize, required: &mut usize) -> u32;
        fn capvet_unpack_words(bytes: *const u8, length: usize, out: *mut u8, size: usize, required: &mut usize) -> u32;
        fn capvet_pack_message(
            bytes: *const u8,
            length: usize,
            limits: &CallLimits,
            out: *mut u8,
            size: usize,
            required: &mut usize,
            report: &mut CallReport,
        ) -> u32;
        fn capvet_unpack_message(
            bytes: *const u8,
            length: usize,
            limits: &CallLimits,
            out: *mut u8,
            size: usize,
            state: &mut Unpacking,
            consumed: &mut usize,
            required: &mut usize,
            report: &mut CallReport,
        ) -> u32;
        fn capvet_frame_bound(words: u64) -> usize;
        fn capvet_marks_bound(length: usize) -> usize;
        fn capvet_canonical_bound(length: usize) -> usize;
        fn capvet_pack_bound(length: usize) -> usize;
    }

    // SAFETY, of each call: the declarations are those of the header, and each address and length are those of a slice that is
    // borrowed for the call.
    impl Calls for Proved {
        fn frame(bytes: &[u8], limits: &CallLimits, report: &mut CallReport) -> u32 {
            unsafe { capvet_frame(bytes.as_ptr(), bytes.len(), limits, report) }
        }
        fn vet(bytes: &[u8], limits: &CallLimits, report: &mut CallReport) -> u32 {
            unsafe { capvet_vet(bytes.as_ptr(), bytes.len(), limits, report) }
        }
        fn vet_exclusive(
            bytes: &[u8],
            limits: &CallLimits,
            marks: &mut [u64],
            required: &mut usize,
            report: &mut CallReport,
        ) -> u32 {
            unsafe { capvet_vet_exclusive(bytes.as_ptr(), bytes.len(), limits, marks.as_mut_ptr(), marks.len(), required, report) }
        }
        fn vet_segments(segments: &[&[u8]], limits: &CallLimits, report: &mut CallReport) -> u32 {
            let raw: Vec<_> = segments.iter().map(|it| Segment { bytes: it.as_ptr(), length: it.len() }).collect();
            unsafe { capvet_vet_segments(raw.as_ptr(), raw.len(), limits, report) }
        }
        fn segments(
            bytes: &[u8],
            limits: &CallLimits,
            extents: &mut [CallExtent],
            required: &mut usize,
            report: &mut CallReport,
        ) -> u32 {
            unsafe { capvet_segments(bytes.as_ptr(), bytes.len(), limits, extents.as_mut_ptr(), extents.len(), required, report) }
        }
        fn check_canonical(bytes: &[u8], limits: &CallLimits, report: &mut CallReport) -> u32 {
            unsafe { capvet_check_canonical(bytes.as_ptr(), bytes.len(), limits, report) }
        }
        fn check_canonical_words(words: &[u8], limits: &CallLimits, report: &mut CallReport) -> u32 {
            unsafe { capvet_check_canonical_words(words.as_ptr(), words.len(), limits, report) }
        }
        fn first_difference(bytes: &[u8], limits: &CallLimits, report: &mut CallReport) -> u32 {
            unsafe { capvet_first_difference(bytes.as_ptr(), bytes.len(), limits, report) }
        }
        fn reader_words(report: &CallReport, readings: u32) -> u64 {
            unsafe { capvet_reader_words(report, readings) }
        }
        fn reader_nesting(report: &CallReport) -> u32 {
            unsafe { capvet_reader_nesting(report) }
        }
        fn canonical(bytes: &[u8], limits: &CallLimits, out: &mut [u8], required: &mut usize, report: &mut CallReport) -> u32 {
            unsafe { capvet_canonical(bytes.as_ptr(), bytes.len(), limits, out.as_mut_ptr(), out.len(), required, report) }
        }
        fn get(bytes: &[u8], limits: &CallLimits, path: &[u8], node: &mut CallNode, report: &mut CallReport) -> u32 {
            unsafe { capvet_get(bytes.as_ptr(), bytes.len(), limits, path.as_ptr(), path.len(), node, report) }
        }
        fn get_range(
            bytes: &[u8],
            limits: &CallLimits,
            steps: &[CallStep],
            varying: usize,
            nodes: &mut [CallNode],
            found: &mut usize,
            report: &mut CallReport,
        ) -> u32 {
            unsafe {
                capvet_get_range(
                    bytes.as_ptr(),
                    bytes.len(),
                    limits,
                    steps.as_ptr(),
                    steps.len(),
                    varying,
                    nodes.as_mut_ptr(),
                    nodes.len(),
                    found,
                    report,
                )
            }
        }
        fn pointer_path(
            bytes: &[u8],
            limits: &CallLimits,
            number: u64,
            steps: &mut [CallStep],
            required: &mut usize,
            report: &mut CallReport,
        ) -> u32 {
            unsafe {
                capvet_pointer_path(bytes.as_ptr(), bytes.len(), limits, number, steps.as_mut_ptr(), steps.len(), required, report)
            }
        }
        fn earlier_pointer(bytes: &[u8], limits: &CallLimits, number: u64, report: &mut CallReport) -> u32 {
            unsafe { capvet_earlier_pointer(bytes.as_ptr(), bytes.len(), limits, number, report) }
        }
        fn explain(bytes: &[u8], limits: &CallLimits, text: &mut [u8], required: &mut usize, report: &mut CallReport) -> u32 {
            unsafe { capvet_explain(bytes.as_ptr(), bytes.len(), limits, text.as_mut_ptr(), text.len(), required, report) }
        }
        fn explain_overlap(
            bytes: &[u8],
            limits: &CallLimits,
            pointer: OverlapPointer,
            text: &mut [u8],
            required: &mut usize,
            report: &mut CallReport,
        ) -> u32 {
            let OverlapPointer { segment, word, number } = pointer;
            let (text, size) = (text.as_mut_ptr(), text.len());
            unsafe {
                capvet_explain_overlap(bytes.as_ptr(), bytes.len(), limits, segment, word, number, text, size, required, report)
            }
        }
        fn pack(bytes: &[u8], out: &mut [u8], required: &mut usize) -> u32 {
            unsafe { capvet_pack_words(bytes.as_ptr(), bytes.len(), out.as_mut_ptr(), out.len(), required) }
        }
        fn unpack(bytes: &[u8], out: &mut [u8], required: &mut usize) -> u32 {
            unsafe { capvet_unpack_words(bytes.as_ptr(), bytes.len(), out.as_mut_ptr(), out.len(), required) }
        }
        fn pack_message(bytes: &[u8], limits: &CallLimits, out: &mut [u8], required: &mut usize, report: &mut CallReport) -> u32 {
            unsafe { capvet_pack_message(bytes.as_ptr(), bytes.len(), limits, out.as_mut_ptr(), out.len(), required, report) }
        }
        fn unpack_message(
            bytes: &[u8],
            limits: &CallLimits,
            out: &mut [u8],
            state: &mut Unpacking,
            consumed: &mut usize,
            required: &mut usize,
            report: &mut CallReport,
        ) -> u32 {
            unsafe {
                capvet_unpack_message(
                    bytes.as_ptr(),
                    bytes.len(),
                    limits,
                    out.as_mut_ptr(),
                    out.len(),
                    state,
                    consumed,
                    required,
                    report,
                )
            }
        }
        fn bounds(number: u64) -> [u64; 4] {
            let length = number as usize;
            unsafe {
                [
                    capvet_frame_bound(number) as u64,
                    capvet_marks_bound(length) as u64,
                    capvet_canonical_bound(length) as u64,
                    capvet_pack_bound(length) as u64,
                ]
            }
        }
    }
}
