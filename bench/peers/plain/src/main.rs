//! Times one call of the library over a file: of the text without contracts as rustc builds it, or of the proved library.
//!
//!     plain-times plain|proved CALL FILE ROUNDS
//!
//! `pack` gets the whole file, and `unpack` its packed text. `unpack_message` gets the packed text of each message of it, and the other
//! calls get each message. Prints the least nanoseconds of a round, and the sum of the answers of one.

#[allow(dead_code)]
#[path = "../../../../tests/plain/src/calls.rs"]
mod calls;

use calls::{CallLimits, CallNode, CallReport, Calls, Plain, Proved, Unpacking};
use std::borrow::Cow;
use std::hint::black_box;
use std::time::Instant;

const REPORT: CallReport = CallReport {
    length: 0,
    input_required: 0,
    detail: 0,
    charge: 0,
    pointers: 0,
    capabilities: 0,
    depth: 0,
    segments: 0,
    segment: 0,
    word: 0,
    words: 0,
    reserved: [0; 6],
};
const NODE: CallNode =
    CallNode { kind: 0, element: 0, count: 0, data_words: 0, pointers: 0, capability: 0, offset: 0, length: 0, reserved: [0; 2] };
const START: Unpacking = Unpacking { written: 0, zero_words: 0, literal_words: 0, reserved: [0; 2] };

/// What calls write to.
struct Buffers {
    bytes: Vec<u8>,
    marks: Vec<u64>,
    node: CallNode,
    state: Unpacking,
    consumed: usize,
    required: usize,
    report: CallReport,
}

type Call = fn(&[u8], &CallLimits, &mut Buffers) -> u32;

fn call_of<C: Calls>(name: &str) -> Call {
    match name {
        "vet" => |bytes, limits, to| C::vet(bytes, limits, &mut to.report),
        "check_canonical" => |bytes, limits, to| C::check_canonical(bytes, limits, &mut to.report),
        "first_difference" => |bytes, limits, to| C::first_difference(bytes, limits, &mut to.report),
        "canonical" => |bytes, limits, to| C::canonical(bytes, limits, &mut to.bytes, &mut to.required, &mut to.report),
        "get" => |bytes, limits, to| C::get(bytes, limits, b"/p0", &mut to.node, &mut to.report),
        "vet_exclusive" => |bytes, limits, to| C::vet_exclusive(bytes, limits, &mut to.marks, &mut to.required, &mut to.report),
        "pack" => |bytes, _, to| C::pack(bytes, &mut to.bytes, &mut to.required),
        "unpack" => |bytes, _, to| C::unpack(bytes, &mut to.bytes, &mut to.required),
        "pack_message" => |bytes, limits, to| C::pack_message(bytes, limits, &mut to.bytes, &mut to.required, &mut to.report),
        "unpack_message" => |bytes, limits, to| {
            C::unpack_message(bytes, limits, &mut to.bytes, &mut to.state, &mut to.consumed, &mut to.required, &mut to.report)
        },
        _ => panic!("{name} isn't timed"),
    }
}

/// The messages of a file.
fn messages<'f>(file: &'f [u8], limits: &CallLimits, report: &mut CallReport) -> Vec<Cow<'f, [u8]>> {
    let (mut messages, mut rest) = (Vec::new(), file);
    while !rest.is_empty() {
        assert_eq!(Plain::frame(rest, limits, report), 0, "a message");
        let (message, more) = rest.split_at(report.length as usize);
        messages.push(Cow::Borrowed(message));
        rest = more;
    }
    messages
}

/// What each call gets.
fn inputs<'f>(name: &str, file: &'f [u8], limits: &CallLimits, to: &mut Buffers) -> Vec<Cow<'f, [u8]>> {
    let (mut inputs, pack) = match name {
        "pack" => return vec![Cow::Borrowed(file)],
        "unpack" => (vec![Cow::Borrowed(file)], call_of::<Plain>("pack")),
        "unpack_message" => (messages(file, limits, &mut to.report), call_of::<Plain>("pack_message")),
        _ => return messages(file, limits, &mut to.report),
    };
    for input in &mut inputs {
        assert_eq!(pack(input, limits, to), 0, "the buffer is large enough");
        *input = Cow::Owned(to.bytes[..to.required].to_vec());
    }
    inputs
}

fn main() {
    let words: Vec<String> = std::env::args().collect();
    let (name, rounds) = (words[2].as_str(), words[4].parse::<u32>().expect("a number of rounds"));
    let file = std::fs::read(&words[3]).expect("a file");
    let mut to = Buffers {
        bytes: vec![0; 2 * file.len() + 40_000],
        marks: vec![0; file.len() / 512 + 1],
        node: NODE,
        state: START,
        consumed: 0,
        required: 0,
        report: REPORT,
    };
    let limits = CallLimits { message_words: 1 << 28, charge: 1 << 28, depth: 256, ..CallLimits::default_limits() };
    let inputs = inputs(name, &file, &limits, &mut to);
    let call = if words[1] == "plain" { call_of::<Plain>(name) } else { call_of::<Proved>(name) };
    let (mut least, mut answers) = (u128::MAX, 0);
    for _ in 0..rounds {
        let start = Instant::now();
        answers = inputs.iter().map(|input| u64::from(call(black_box(input), &limits, black_box(&mut to)))).sum();
        least = least.min(start.elapsed().as_nanos());
    }
    println!("{least} ns, answers {answers}");
}
