//! All calls on one message, with buffers and limits that are just enough and just not.

use crate::calls::{CallExtent, CallLimits, CallNode, CallReport, CallStep, Calls, OverlapPointer, Unpacking};
use crate::random::Random;

// Reports and nodes begin with these numbers, so that what a call doesn't write is seen.
const REPORT: CallReport = CallReport {
    length: 1,
    input_required: 2,
    detail: 3,
    charge: 4,
    pointers: 5,
    capabilities: 6,
    depth: 7,
    segments: 8,
    segment: 9,
    word: 10,
    words: 12,
    reserved: [11; 6],
};
const NODE: CallNode = CallNode {
    kind: 91,
    element: 92,
    count: 93,
    data_words: 94,
    pointers: 95,
    capability: 96,
    offset: 97,
    length: 98,
    reserved: [99; 2],
};
const START: Unpacking = Unpacking { written: 0, zero_words: 0, literal_words: 0, reserved: [0; 2] };
const FILL: u8 = 0xa5;
// No buffer is larger.
const MOST: usize = 1 << 22;

/// All that a call returns and writes.
#[derive(Clone, Debug, PartialEq, Eq)]
pub struct Outcome {
    pub answer: u32,
    pub report: CallReport,
    pub numbers: Vec<u64>,
    pub bytes: Vec<u8>,
    pub nodes: Vec<CallNode>,
}

impl Outcome {
    fn of(answer: u32, report: CallReport, numbers: &[u64]) -> Self {
        Self { answer, report, numbers: numbers.to_vec(), bytes: Vec::new(), nodes: Vec::new() }
    }
}

/// A call, with what it is asked beside the message and the limits.
#[derive(Clone, Debug)]
pub enum Case {
    Frame,
    Vet,
    Exclusive { marks: usize },
    Segments { cut: usize, more: usize },
    Extents { count: usize },
    Check,
    CheckWords,
    Difference,
    Canonical { size: usize },
    Get { path: String },
    Range { steps: Vec<CallStep>, varying: usize, count: usize },
    Path { number: u64, count: usize },
    Earlier { number: u64 },
    Explain { size: usize },
    Overlap { place: (u32, u32), number: u64, size: usize },
    Pack { size: usize },
    Unpack { size: usize },
    PackMessage { size: usize },
    UnpackMessage { size: usize, state: Unpacking },
    Bounds { number: u64 },
}

impl Case {
    pub fn name(&self) -> &'static str {
        match self {
            Case::Frame => "frame",
            Case::Vet => "vet",
            Case::Exclusive { .. } => "vet_exclusive",
            Case::Segments { .. } => "vet_segments",
            Case::Extents { .. } => "segments",
            Case::Check => "check_canonical",
            Case::CheckWords => "check_canonical_words",
            Case::Difference => "first_difference",
            Case::Canonical { .. } => "canonical",
            Case::Get { .. } => "get",
            Case::Range { .. } => "get_range",
            Case::Path { .. } => "pointer_path",
            Case::Earlier { .. } => "earlier_pointer",
            Case::Explain { .. } => "explain",
            Case::Overlap { .. } => "explain_overlap",
            Case::Pack { .. } => "pack",
            Case::Unpack { .. } => "unpack",
            Case::PackMessage { .. } => "pack_message",
            Case::UnpackMessage { .. } => "unpack_message",
            Case::Bounds { .. } => "bounds",
        }
    }

    /// What the call returns and writes.
    pub fn run<C: Calls>(&self, bytes: &[u8], limits: &CallLimits) -> Outcome {
        let (mut report, mut required) = (REPORT, 77);
        let with_bytes = |answer, report, numbers: &[u64], out| Outcome { bytes: out, ..Outcome::of(answer, report, numbers) };
        match self {
            Case::Frame => Outcome::of(C::frame(bytes, limits, &mut report), report, &[]),
            Case::Vet => Outcome::of(C::vet(bytes, limits, &mut report), report, &[]),
            Case::Exclusive { marks } => {
                let mut marks = vec![0x5555_5555_5555_5555; *marks];
                let answer = C::vet_exclusive(bytes, limits, &mut marks, &mut required, &mut report);
                marks.push(required as u64);
                Outcome { numbers: marks, ..Outcome::of(answer, report, &[]) }
            }
            Case::Segments { cut, more } => {
                let mut segments = segments_of::<C>(bytes);
                if let Some(last) = segments.last_mut() {
                    *last = &last[..last.len() - cut.min(&last.len())];
                }
                segments.resize(segments.len() + more, &[]);
                Outcome::of(C::vet_segments(&segments, limits, &mut report), report, &[])
            }
            Case::Extents { count } => {
                let mut extents = vec![CallExtent { offset: 5, length: 6 }; *count];
                let answer = C::segments(bytes, limits, &mut extents, &mut required, &mut report);
                let mut numbers = vec![required as u64];
                numbers.extend(extents.iter().flat_map(|it| [it.offset, it.length]));
                Outcome { numbers, ..Outcome::of(answer, report, &[]) }
            }
            Case::Check => Outcome::of(C::check_canonical(bytes, limits, &mut report), report, &[]),
            Case::CheckWords => {
                let answer = C::check_canonical_words(bytes, limits, &mut report);
                let needed = [C::reader_words(&report, limits.depth), u64::from(C::reader_nesting(&report))];
                Outcome::of(answer, report, &needed)
            }
            Case::Difference => Outcome::of(C::first_difference(bytes, limits, &mut report), report, &[]),
            Case::Canonical { size } => {
                let mut out = vec![FILL; *size];
                let answer = C::canonical(bytes, limits, &mut out, &mut required, &mut report);
                with_bytes(answer, report, &[required as u64], out)
            }
            Case::Get { path } => {
                let mut node = NODE;
                let answer = C::get(bytes, limits, path.as_bytes(), &mut node, &mut report);
                Outcome { nodes: vec![node], ..Outcome::of(answer, report, &[]) }
            }
            Case::Range { steps, varying, count } => {
                let mut nodes = vec![NODE; *count];
                let answer = C::get_range(bytes, limits, steps, *varying, &mut nodes, &mut required, &mut report);
                Outcome { nodes, ..Outcome::of(answer, report, &[required as u64]) }
            }
            Case::Path { number, count } => {
                let mut steps = vec![CallStep { kind: 55, number: 56 }; *count];
                let answer = C::pointer_path(bytes, limits, *number, &mut steps, &mut required, &mut report);
                let mut numbers = vec![required as u64];
                numbers.extend(steps.iter().map(|step| u64::from(step.kind) << 32 | u64::from(step.number)));
                Outcome { numbers, ..Outcome::of(answer, report, &[]) }
            }
            Case::Earlier { number } => Outcome::of(C::earlier_pointer(bytes, limits, *number, &mut report), report, &[]),
            Case::Explain { size } => {
                let mut out = vec![FILL; *size];
                let answer = C::explain(bytes, limits, &mut out, &mut required, &mut report);
                with_bytes(answer, report, &[required as u64], out)
            }
            Case::Overlap { place: (segment, word), number, size } => {
                let pointer = OverlapPointer { segment: *segment, word: *word, number: *number };
                let mut out = vec![FILL; *size];
                let answer = C::explain_overlap(bytes, limits, pointer, &mut out, &mut required, &mut report);
                with_bytes(answer, report, &[required as u64], out)
            }
            Case::Pack { size } => {
                let mut out = vec![FILL; *size];
                let answer = C::pack(bytes, &mut out, &mut required);
                with_bytes(answer, report, &[required as u64], out)
            }
            Case::Unpack { size } => {
                let mut out = vec![FILL; *size];
                let answer = C::unpack(bytes, &mut out, &mut required);
                with_bytes(answer, report, &[required as u64], out)
            }
            Case::PackMessage { size } => {
                let mut out = vec![FILL; *size];
                let answer = C::pack_message(bytes, limits, &mut out, &mut required, &mut report);
                with_bytes(answer, report, &[required as u64], out)
            }
            Case::UnpackMessage { size, state } => unpacked::<C>(bytes, limits, *size, *state),
            Case::Bounds { number } => Outcome::of(0, REPORT, &C::bounds(*number)),
        }
    }
}

/// Unpacks a stream in one buffer, which gets the size that is asked for, and begins with one of `size` bytes. Each piece is a few
/// bytes long, or what is asked for.
fn unpacked<C: Calls>(packed: &[u8], limits: &CallLimits, size: usize, state: Unpacking) -> Outcome {
    let (mut at, mut given, mut out, mut state) = (0, 1 + size % 7, vec![FILL; size], state);
    let (mut numbers, mut all) = (Vec::new(), Vec::new());
    for _ in 0..24 {
        let (mut consumed, mut required, mut report) = (78, 79, REPORT);
        let piece = &packed[at..packed.len().min(at + given)];
        let answer = C::unpack_message(piece, limits, &mut out, &mut state, &mut consumed, &mut required, &mut report);
        numbers.extend([u64::from(answer), consumed as u64, required as u64, report.input_required, report.detail, report.length]);
        numbers.extend([state.written, u64::from(state.zero_words), u64::from(state.literal_words), state.reserved[0]]);
        at += consumed.min(piece.len());
        match answer {
            0 => all.extend(&out[..required.min(out.len())]),
            1 | 4 if at == packed.len() => break,
            // (as many bytes as are asked for may be more than a usize of 32 bits has)
            1 | 4 => given = report.input_required.max(given as u64 * 3).min(packed.len() as u64) as usize,
            9 => out.resize(required.min(MOST), FILL),
            _ => break,
        }
    }
    all.extend(out);
    Outcome { numbers, bytes: all, ..Outcome::of(0, REPORT, &[]) }
}

/// The segments of the frame at the start of bytes.
fn segments_of<C: Calls>(bytes: &[u8]) -> Vec<&[u8]> {
    let limits = CallLimits { message_words: 1 << 28, ..CallLimits::default_limits() };
    let mut extents = [CallExtent { offset: 0, length: 0 }; 512];
    let (mut count, mut report) = (0, REPORT);
    if C::segments(bytes, &limits, &mut extents, &mut count, &mut report) != 0 {
        return Vec::new();
    }
    extents[..count].iter().map(|it| &bytes[it.offset as usize..(it.offset + it.length) as usize]).collect()
}

/// Limits at random: many are those of `CAPVET_LIMITS_INIT`.
pub fn some_limits(random: &mut Random) -> CallLimits {
    let mut limits = CallLimits::default_limits();
    if random.once_in(4) {
        let words = random.one_of(&[0, 1, 2, 20, 400, 1 << 28, u64::MAX - 1]);
        limits.message_words = random.near(words);
    }
    if random.once_in(4) {
        let words = random.one_of(&[2, 20, 400, 5000, 1 << 28]);
        limits.charge = random.near(words);
    }
    match random.below(6) {
        0 => limits.depth = random.near(64) as u32,
        1 => {
            let levels = random.one_of(&[2, 4, 128, 256]);
            limits.depth = random.near(levels) as u32;
        }
        // (for chains of objects, which are as deep)
        2 | 3 => limits.depth = 256,
        _ => {}
    }
    limits.flags = match random.below(8) {
        0..=3 => 0,
        4 | 5 => 3,
        6 => random.below(4) as u32,
        _ => random.below(8) as u32,
    };
    limits.form = match random.below(8) {
        0..=3 => 0,
        4 | 5 => 1,
        6 => 2,
        _ => random.below(4) as u32,
    };
    if random.once_in(500) {
        limits.reserved[random.place(6)] = 1;
    }
    limits
}

/// Limits that a message just meets or just not, by its report.
pub fn limits_at(random: &mut Random, limits: &CallLimits, report: &CallReport) -> CallLimits {
    let mut limits = *limits;
    match random.below(3) {
        0 => limits.charge = random.near(report.charge),
        1 => limits.depth = random.near(u64::from(report.depth)) as u32,
        _ => limits.message_words = random.near((report.length / 8).saturating_sub(u64::from(report.segments / 2 + 1))),
    }
    limits
}

/// A path at random, now and then one that is no path.
pub fn path(random: &mut Random) -> String {
    let mut path = String::new();
    for _ in 0..random.below(5) {
        path += &match random.below(16) {
            0..=7 => format!("/p{}", random.below(4)),
            8..=13 => format!("/i{}", random.below(6)),
            14 => format!("/{}{}", random.one_of(&["p", "i"]), random.near(65535)),
            _ => random
                .one_of(&[
                    "/",
                    "/p65536",
                    "/i4294967295",
                    "/i4294967296",
                    "/p01",
                    "/x1",
                    "/p",
                    "/p-1",
                    "p0",
                    "/i99999999999999999999",
                ])
                .to_owned(),
        };
    }
    path
}

/// Steps at random, now and then of an unknown kind or with a great number.
pub fn steps(random: &mut Random) -> Vec<CallStep> {
    let one = |random: &mut Random| CallStep {
        kind: if random.once_in(40) { 2 } else { random.below(2) as u32 },
        number: match random.below(12) {
            0 => random.near(65535) as u32,
            1 => random.near(u64::from(u32::MAX)) as u32,
            _ => random.below(4) as u32,
        },
    };
    (0..random.below(5)).map(|_| one(random)).collect()
}

/// A state of unpacking at random, which some call leaves or none does.
pub fn state(random: &mut Random) -> Unpacking {
    if !random.once_in(6) {
        return START;
    }
    let run = |random: &mut Random| if random.once_in(2) { 0 } else { random.near(255) as u32 };
    Unpacking {
        written: 8 * random.below(6) + random.below(10).saturating_sub(8),
        zero_words: run(random),
        literal_words: run(random),
        reserved: [random.below(20).saturating_sub(18), 0],
    }
}

/// A size of a buffer: just enough, just not, or nothing of this kind.
pub fn size(random: &mut Random, required: usize) -> usize {
    match random.below(6) {
        0 => random.place(40),
        1 => 0,
        // (below 0 it is a very great number)
        _ => match random.near(required as u64) as usize {
            size if size <= MOST => size,
            _ => 0,
        },
    }
}
