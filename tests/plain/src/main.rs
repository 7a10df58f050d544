//! Makes messages, and compares all that each call returns and writes for them: of the text without contracts as rustc builds
//! it, and of the proved library (with the feature `proved`). Prints a digest of the former, for other machines.
//!
//!     plain MESSAGES [SEED]

mod calls;
mod cases;
mod messages;
mod random;

use calls::{CallLimits, Calls, Plain};
use cases::{Case, Outcome};
use random::Random;
use std::collections::BTreeMap;
use std::process::exit;

#[derive(Default)]
struct Tally {
    calls: u64,
    differences: u64,
    digest: u64,
    // how often each call gave each answer
    answers: BTreeMap<(&'static str, u32), u64>,
}

/// The digest of a text after another (FNV-1a).
fn digest(digest: u64, bytes: &[u8]) -> u64 {
    bytes.iter().fold(digest, |all, byte| (all ^ u64::from(*byte)).wrapping_mul(0x0100_0000_01b3))
}

impl Tally {
    /// Runs a case, and counts whether both makes agree.
    fn run(&mut self, case: &Case, bytes: &[u8], limits: &CallLimits) -> Outcome {
        let outcome = case.run::<Plain>(bytes, limits);
        self.calls += 1;
        *self.answers.entry((case.name(), outcome.answer)).or_default() += 1;
        // (bounds are other numbers on machines of 32 bits)
        if !matches!(case, Case::Bounds { .. }) {
            self.add(&outcome);
        }
        #[cfg(feature = "proved")]
        self.compare(case, bytes, limits, &outcome);
        outcome
    }

    fn add(&mut self, outcome: &Outcome) {
        let text = format!("{} {:?} {:?} {:?}", outcome.answer, outcome.report, outcome.numbers, outcome.nodes);
        self.digest = digest(digest(self.digest, text.as_bytes()), &outcome.bytes);
    }

    #[cfg(feature = "proved")]
    fn compare(&mut self, case: &Case, bytes: &[u8], limits: &CallLimits, outcome: &Outcome) {
        // how many differences are shown
        const SHOWN: u64 = 5;
        let proved = case.run::<calls::Proved>(bytes, limits);
        if proved == *outcome {
            return;
        }
        self.differences += 1;
        if self.differences <= SHOWN {
            let hex: String = bytes.iter().take(300).map(|byte| format!("{byte:02x}")).collect();
            let cut = |text: String| text.chars().take(700).collect::<String>();
            println!("DIFFERS {case:?} {limits:?} of {} bytes {hex}", bytes.len());
            println!("   plain {}\n  proved {}", cut(format!("{outcome:?}")), cut(format!("{proved:?}")));
        }
    }
}

/// Runs all calls on a message.
fn try_message(tally: &mut Tally, random: &mut Random, bytes: &[u8], limits: &CallLimits) {
    tally.run(&Case::Frame, bytes, limits);
    let vetted = tally.run(&Case::Vet, bytes, limits);
    if vetted.answer == 0 {
        let near = cases::limits_at(random, limits, &vetted.report);
        for case in [Case::Vet, Case::Check, Case::Difference, Case::Explain { size: 6144 }, Case::Frame] {
            tally.run(&case, bytes, &near);
        }
    }
    try_marks(tally, random, bytes, limits);
    try_segments(tally, random, bytes, limits);
    tally.run(&Case::Check, bytes, limits);
    tally.run(&Case::Difference, bytes, limits);
    tally.run(&Case::CheckWords, bytes.get(8..).unwrap_or(bytes), limits);
    let whole = tally.run(&Case::Canonical { size: 0 }, bytes, limits);
    let required = whole.numbers[0] as usize;
    let copy = tally.run(&Case::Canonical { size: required.min(1 << 22) }, bytes, limits);
    tally.run(&Case::Canonical { size: cases::size(random, required) }, bytes, limits);
    if copy.answer == 0 {
        let words = CallLimits { form: 2, ..*limits };
        tally.run(&Case::Check, &copy.bytes, &words);
        tally.run(&Case::Difference, &copy.bytes, &words);
        tally.run(&Case::CheckWords, &copy.bytes, limits);
    }
    try_nodes(tally, random, bytes, limits);
    try_pointers(tally, random, bytes, limits, vetted.report.pointers);
    try_packing(tally, random, bytes, limits);
}

fn try_marks(tally: &mut Tally, random: &mut Random, bytes: &[u8], limits: &CallLimits) {
    let enough = tally.run(&Case::Exclusive { marks: bytes.len() / 512 + 1 }, bytes, limits);
    let required = *enough.numbers.last().unwrap_or(&0) as usize;
    tally.run(&Case::Exclusive { marks: cases::size(random, required) }, bytes, limits);
    // (the pointer that overlaps)
    if enough.answer == 18 {
        tally.run(&Case::Earlier { number: enough.report.pointers }, bytes, limits);
    }
}

fn try_segments(tally: &mut Tally, random: &mut Random, bytes: &[u8], limits: &CallLimits) {
    for count in [0, 1, random.near(512) as usize, 512] {
        tally.run(&Case::Extents { count: count.min(600) }, bytes, limits);
    }
    tally.run(&Case::Segments { cut: 0, more: 0 }, bytes, limits);
    let (cut, more) = (random.place(17), if random.once_in(8) { random.place(514) } else { random.place(2) });
    tally.run(&Case::Segments { cut, more }, bytes, limits);
}

fn try_nodes(tally: &mut Tally, random: &mut Random, bytes: &[u8], limits: &CallLimits) {
    for _ in 0..4 {
        let path = cases::path(random);
        tally.run(&Case::Get { path }, bytes, limits);
    }
    for _ in 0..2 {
        let steps = cases::steps(random);
        let varying = if random.once_in(8) { random.place(6) } else { random.place(steps.len().max(1)) };
        let count = random.place(20);
        tally.run(&Case::Range { steps, varying, count }, bytes, limits);
    }
}

fn try_pointers(tally: &mut Tally, random: &mut Random, bytes: &[u8], limits: &CallLimits, pointers: u64) {
    for number in [random.near(1), random.near(pointers), random.below(pointers.max(1) + 2)] {
        let path = tally.run(&Case::Path { number, count: 514 }, bytes, limits);
        let count = cases::size(random, path.numbers[0] as usize).min(600);
        tally.run(&Case::Path { number, count }, bytes, limits);
        tally.run(&Case::Earlier { number }, bytes, limits);
        let place = (random.below(3) as u32, random.below(9) as u32);
        let lines = tally.run(&Case::Overlap { place, number, size: 12288 }, bytes, limits);
        let size = cases::size(random, lines.numbers[0] as usize);
        tally.run(&Case::Overlap { place, number, size }, bytes, limits);
    }
    let explained = tally.run(&Case::Explain { size: 6144 }, bytes, limits);
    let size = cases::size(random, explained.numbers[0] as usize);
    tally.run(&Case::Explain { size }, bytes, limits);
}

fn try_packing(tally: &mut Tally, random: &mut Random, bytes: &[u8], limits: &CallLimits) {
    let bound = Plain::bounds(bytes.len() as u64)[3] as usize;
    let words = if random.once_in(10) { bytes } else { &bytes[..bytes.len() / 8 * 8] };
    let packed = tally.run(&Case::Pack { size: bound }, words, limits);
    let required = packed.numbers[0] as usize;
    tally.run(&Case::Pack { size: cases::size(random, required) }, words, limits);
    let message = tally.run(&Case::PackMessage { size: bound }, bytes, limits);
    tally.run(&Case::PackMessage { size: cases::size(random, message.numbers[0] as usize) }, bytes, limits);
    // (a stream begins with the message)
    let mut stream = match message.answer {
        0 => message.bytes[..message.numbers[0] as usize].to_vec(),
        _ => packed.bytes[..if packed.answer == 0 { required } else { 0 }].to_vec(),
    };
    if random.once_in(3) && !stream.is_empty() {
        let at = random.place(stream.len());
        stream[at] = random.near(u64::from(stream[at])) as u8;
    }
    if random.once_in(4) {
        stream.truncate(random.place(stream.len() + 1));
    }
    let whole = tally.run(&Case::Unpack { size: 0 }, &stream, limits);
    let required = whole.numbers[0] as usize;
    for size in [required.min(1 << 22), cases::size(random, required)] {
        tally.run(&Case::Unpack { size }, &stream, limits);
    }
    let (size, state) = (random.place(64), cases::state(random));
    tally.run(&Case::UnpackMessage { size, state }, &stream, limits);
    tally.run(&Case::UnpackMessage { size: cases::size(random, required), state: cases::state(random) }, &stream, limits);
}

fn main() {
    let numbers: Vec<u64> = std::env::args().skip(1).map(|word| word.parse().expect("a number")).collect();
    let (count, seed) = (numbers[0], numbers.get(1).copied().unwrap_or(1));
    let mut tally = Tally::default();
    for number in 0..count {
        // (each message by its own numbers, so that one can be made again)
        let mut random = Random::new(seed << 32 | number);
        let mut bytes = messages::message(&mut random);
        let limits = cases::some_limits(&mut random);
        if limits.form == 2 && random.once_in(2) && bytes.len() > 8 {
            bytes.drain(..8);
        }
        try_message(&mut tally, &mut random, &bytes, &limits);
        if random.once_in(4) {
            let number = match random.below(3) {
                0 => random.near(1 << 28),
                1 => {
                    let most = u64::MAX / random.one_of(&[1, 8, 10]);
                    random.near(most)
                }
                _ => random.below(10_000),
            };
            tally.run(&Case::Bounds { number }, &[], &limits);
        }
    }
    println!("{count} messages, {} calls, digest {:016x}, {} differences", tally.calls, tally.digest, tally.differences);
    let mut of: BTreeMap<&str, Vec<String>> = BTreeMap::new();
    for ((name, answer), count) in &tally.answers {
        of.entry(name).or_default().push(format!("{answer}:{count}"));
    }
    for (name, counts) in of {
        println!("  {name}: {}", counts.join(" "));
    }
    exit(i32::from(tally.differences > 0));
}
