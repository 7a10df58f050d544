//! Fuzz target: the crate `capvet`, and `capvet_capnp` with the crate `capnp` reading what it accepts.
//!
//! - What is accepted is accepted by just the limits that it needs, and in separate segments.
//! - Streams give the same messages from a slice, in pieces of any size, pushed, and packed. Accepted ones alone pass a reader.
//! - A range of nodes has what is at each path, vetted or not, and neither leaves the message.
//! - The canonical form of a canonical form is the same.
//! - The pointer of an overlap has a path, and the one before it, if there is one, another path.
//! - Each refusal is explained by the lines that the proved library writes, and nothing else is.
//! - The crate `capnp` reads each strict message under the limits for it alone, at any address.

#[path = "../../../readers/rust/src/walk.rs"]
mod walk;

mod errors;
mod explaining;
mod input;

use capnp::message::{Reader, ReaderOptions};
use capvet::{
    CanonicalError, ExclusiveError, Feed, FrameError, Limits, Message, MessageBuf, ReadError,
    Reason, Report, Step, VetError, VettedReader,
};
use capvet_capnp::Vetted;
use input::{Form, Input, Pieces};
use std::io::{ErrorKind, Read};

const MOST: usize = 1 << 16;
// The most messages of a stream that are looked at. (a short packed stream may have many)
const MESSAGES: usize = 300;

/// A message in separate segments is the same.
fn segments(it: &Input) {
    let found = match capvet::segments(it.bytes) {
        Ok(segments) => segments,
        Err(error) => return assert_ne!(error.to_string(), ""),
    };
    assert_eq!(found.len(), found.clone().count());
    let all: Vec<_> = found.collect();
    match (
        capvet::vet_prefix(it.bytes, it.limits),
        capvet::vet_segments(&all, it.limits),
    ) {
        (Ok((one, rest)), Ok(other)) => {
            assert_eq!(one.report(), other.report());
            assert!(one.segments().eq(all) && it.bytes.ends_with(rest));
        }
        (one, other) => {
            assert_eq!(one.err(), other.as_ref().err().map(|it| it.error));
            if let Err(error) = other {
                explaining::explain_kept(&error, it.limits);
            }
        }
    }
}

/// A verdict, and those of the limits that the message needs and of less.
fn vet(it: &Input) -> Result<MessageBuf, VetError> {
    let verdict = it.vet(it.limits);
    match &verdict {
        Ok(message) => {
            let report = message.report();
            let tight = it
                .limits
                .with_charge(report.charge)
                .with_depth(report.depth);
            assert_eq!(it.vet(tight).as_ref(), Ok(message));
            if report.charge > 0 {
                assert!(it.vet(tight.with_charge(report.charge - 1)).is_err());
            }
            assert_eq!(report.first_capability.is_some(), report.capabilities > 0);
            assert_eq!(report.length, message.bytes().len());
            let words = message.as_message().segments().map(|it| it.len() / 8);
            assert_eq!(report.words, words.sum::<usize>() as u64);
        }
        Err(error) => {
            assert!(it.form == Form::Words || error.length() <= it.bytes.len());
            assert_ne!(error.to_string(), "");
        }
    }
    verdict
}

fn exclusive(it: &mut Input) {
    let (bytes, limits) = (it.bytes, it.limits);
    let verdict = capvet::vet(bytes, limits);
    let exclusive = limits.with_exclusive(true);
    let by_alloc = capvet::vet(bytes, exclusive);
    let mut marks = vec![u64::MAX; it.choose(it.bytes.len() / 512 + 2)];
    match capvet::vet_exclusive(bytes, limits, &mut marks) {
        Err(ExclusiveError::BufferTooSmall { required, .. }) => {
            assert!(required > marks.len() && verdict.is_ok());
        }
        by_marks => assert_eq!(by_marks, by_alloc.map_err(ExclusiveError::from)),
    }
    match (by_alloc, verdict) {
        (Ok(one), other) => assert_eq!(Ok(one), other),
        (Err(VetError::Refused(refusal)), Ok(_)) => {
            // The pointer of an overlap has a path, and the one before it, if there is one, another path.
            assert_eq!(refusal.reason, Reason::Overlap);
            let path = refusal.path(bytes, limits);
            assert!(path.is_some() && path != refusal.earlier_path(bytes, limits));
        }
        (one, other) => assert_eq!(one, other),
    }
}

fn canonical(it: &mut Input, message: Message<'_>) {
    let form = match message.canonical() {
        Ok(form) => form,
        Err(none) => {
            assert_eq!(Some(none.position), message.report().first_capability);
            assert!(message.first_difference().is_some());
            return assert!(!message.is_canonical());
        }
    };
    assert_eq!(capvet::is_canonical_words(&form, it.limits), Ok(true));
    let words = it.limits.message_words().max(form.len() as u64 / 8);
    let limits = it.limits.with_allow_amplified(true);
    let again = capvet::vet_words(&form, limits.with_message_words(words));
    let again = again.expect("a form is accepted");
    let again = again.as_message();
    assert!(again.is_canonical() && again.canonical().as_ref() == Ok(&form));
    let is_same = message.segments().eq([&form[..]]);
    assert_eq!(message.is_canonical(), is_same);
    let first = message.first_difference();
    assert_eq!(first.is_none(), is_same);
    if let Some(first) = first {
        assert_eq!(first.path(&message).is_some(), first.pointer().is_some());
    }
    let mut out = vec![0xa5; it.choose(form.len() + 9)];
    match message.canonical_into(&mut out) {
        Ok(length) => {
            assert!(out[..length] == form && out[length..].iter().all(|byte| *byte == 0xa5))
        }
        Err(CanonicalError::BufferTooSmall { required, .. }) => {
            assert!(required == form.len() && required > out.len());
            assert!(out.iter().all(|byte| *byte == 0xa5));
        }
        Err(error) => panic!("{error}"),
    }
}

/// The messages of a stream, by their bytes. The last one is an error of the frame.
fn lines(bytes: &[u8], limits: Limits) -> Vec<Result<Report, VetError>> {
    capvet::messages(bytes, limits)
        .map(|message| {
            let message = message?;
            assert_eq!(capvet::vet(message.bytes(), limits), Ok(message));
            Ok(*message.report())
        })
        .take(MESSAGES)
        .collect()
}

/// What a reader of a stream gives, where a reader that isn't ready is asked again.
fn read<I>(items: I, limits: Limits) -> Vec<Result<Report, VetError>>
where
    I: Iterator<Item = Result<MessageBuf, ReadError>>,
{
    let mut number = 0;
    items
        .filter_map(|item| match item {
            Ok(message) => {
                number += 1;
                Some(Ok(*message.report()))
            }
            Err(ReadError::NotAccepted(error)) => {
                assert_eq!(error.number, number);
                number += 1;
                if matches!(error.error, VetError::Refused(_)) {
                    assert_eq!(
                        capvet::vet(&error.unvetted, limits).err(),
                        Some(error.error)
                    );
                }
                explaining::explain_kept(&error, limits);
                Some(Err(error.error))
            }
            Err(error) => {
                assert_eq!(std::io::Error::from(error).kind(), ErrorKind::WouldBlock);
                None
            }
        })
        .take(MESSAGES)
        .collect()
}

/// What a feed gives of bytes in pieces of any size.
fn fed(it: &mut Input, mut feed: Feed, mut bytes: &[u8]) -> Vec<Result<MessageBuf, ReadError>> {
    let mut items = Vec::new();
    while !bytes.is_empty() && items.len() < MESSAGES {
        let (piece, rest) = bytes.split_at(1 + it.choose(bytes.len().min(99)));
        feed.push(piece);
        items.extend(feed.by_ref().map(|it| it.map_err(ReadError::NotAccepted)));
        bytes = rest;
    }
    feed.finish();
    items.extend(feed.by_ref().map(|it| it.map_err(ReadError::NotAccepted)));
    assert!(feed.is_over());
    items
}

/// The bytes of accepted messages before the first that isn't, by a reader.
fn passed(it: &mut Input, expected: &[Result<Report, VetError>]) {
    let (bytes, limits) = (it.bytes, it.limits);
    let count = expected.iter().take_while(|it| it.is_ok()).count();
    let length: usize = expected[..count].iter().flatten().map(|it| it.length).sum();
    let mut reader = VettedReader::new(
        Pieces {
            input: it,
            rest: bytes,
        },
        limits,
    );
    let mut out = Vec::new();
    let end = loop {
        match reader.read_to_end(&mut out) {
            Err(error) if error.kind() == ErrorKind::WouldBlock => {}
            result => break result,
        }
    };
    assert_eq!(end.is_ok(), reader.refused().is_none());
    if end.is_err() {
        // nothing of a refused message comes later either
        assert!(reader.read_to_end(&mut out).is_err());
    }
    if expected.len() < MESSAGES {
        assert!(out == bytes[..length]);
        let refused = reader.refused().map(|it| it.error);
        assert_eq!(refused, expected.get(count).and_then(|it| it.err()));
    }
}

/// A stream has the same messages in pieces, and packed.
fn streams(it: &mut Input) {
    let (bytes, limits) = (it.bytes, it.limits);
    let expected = lines(bytes, limits);
    let pieces = Pieces {
        input: it,
        rest: bytes,
    };
    assert_eq!(
        expected,
        read(capvet::read_messages(pieces, limits), limits)
    );
    let got = read(fed(it, Feed::new(limits), bytes).into_iter(), limits);
    assert!(got == expected || expected.len() == MESSAGES);
    passed(it, &expected);
    let words = &bytes[..bytes.len() / 8 * 8];
    let packed = match capvet::pack_words(words) {
        Ok(packed) => packed,
        Err(error) => panic!("{}", error),
    };
    assert_eq!(capvet::unpack_words(&packed, MOST).as_deref(), Ok(words));
    let pieces = Pieces {
        input: it,
        rest: &packed,
    };
    let got = read(capvet::read_packed_messages(pieces, limits), limits);
    // (a packed stream requires other numbers of bytes where it is cut, and a part of a word isn't packed)
    let is_whole = |it: &&Result<Report, VetError>| {
        !matches!(it, Err(VetError::Frame(FrameError::Truncated { .. })))
    };
    let is_same = |one: &[_], other: &[_]| {
        one.iter()
            .filter(is_whole)
            .eq(other.iter().filter(is_whole))
    };
    assert!(is_same(&expected, &got));
    // (any bytes as a packed stream: nothing is left out by pieces)
    let whole = read(capvet::read_packed_messages(bytes, limits), limits);
    let pieces = Pieces {
        input: it,
        rest: bytes,
    };
    let got = read(capvet::read_packed_messages(pieces, limits), limits);
    assert!(is_same(&whole, &got));
    let got = read(fed(it, Feed::packed(limits), bytes).into_iter(), limits);
    assert!(is_same(&whole, &got) || whole.len() == MESSAGES);
}

/// The nodes at a series of paths are those of each path.
fn series(it: &mut Input, message: Option<Message<'_>>, steps: &[Step]) {
    let varying = it.choose(steps.len());
    let mut path = steps.to_vec();
    for node in capvet::peek_range(it.bytes, steps, varying, it.limits).take(40) {
        assert_eq!(node, capvet::peek(it.bytes, &path, it.limits));
        if let (Some(message), Ok(node)) = (message, node) {
            assert_eq!(message.get(&path), node);
        }
        path[varying] = match path[varying] {
            Step::Pointer(number) => Step::Pointer(number.saturating_add(1)),
            Step::Element(number) => Step::Element(number.saturating_add(1)),
        };
    }
    if let Some(message) = message {
        let nodes = message.get_range(steps, varying);
        assert_eq!(nodes.len().min(40), nodes.take(40).count());
    }
}

/// Paths from the root on.
fn paths(it: &mut Input) {
    let message = capvet::vet(it.bytes, it.limits).ok();
    let mut steps = Vec::new();
    while steps.len() < 6 {
        let found = capvet::peek(it.bytes, &steps, it.limits);
        assert!(message.is_none() || found.is_ok());
        let node = match found {
            Ok(Some(node)) => node,
            Ok(None) => return,
            Err(error) => return assert_ne!(error.to_string(), ""),
        };
        assert!(message.map_or(true, |message| message.get(&steps) == Some(node)));
        assert_ne!(node.to_string(), "");
        let _ = (
            node.text(),
            node.u8_at(it.choose(9)),
            node.u16_at(it.choose(9)),
            node.u32_at(it.choose(9)),
        );
        let _ = (node.u64_at(it.choose(9)), node.bool_at(it.choose(999)));
        let elements = node.elements();
        assert_eq!(elements.len().min(9), elements.clone().take(9).count());
        for element in elements.take(9) {
            assert_eq!(element.data().len() % 8, 0);
        }
        let below = it.choose(12);
        steps.push(match node.kind() {
            capvet::Kind::Struct { .. } => Step::Pointer(below as u16),
            _ => Step::Element(below as u32),
        });
        series(it, message, &steps);
    }
}

/// The lowest limits of a reader for one reading.
fn least(report: &Report) -> ReaderOptions {
    let mut options = ReaderOptions::new();
    options.traversal_limit_in_words(Some(report.reader_words(1) as usize));
    options.nesting_limit(report.reader_nesting() as i32);
    options
}

/// The crate `capnp` reads what is accepted, wherever the bytes are.
fn readers(it: &mut Input) {
    let mut block = vec![0; it.slack];
    block.extend(it.bytes);
    let verdict = capvet_capnp::vetted(&block[it.slack..], it.limits);
    let owned = capvet_capnp::vetted(it.bytes.to_vec(), it.limits);
    match (verdict, owned) {
        (Ok(one), Ok(other)) => {
            assert_eq!(one.report(), other.report());
            let texts = [
                walk::walk(&Reader::new(&one, least(one.report())), false),
                walk::walk(&Reader::new(&other, least(one.report())), true),
                walk::walk(&other.into_reader(), false),
            ];
            if !it.limits.allow_nonstrict() {
                let report = one.report();
                let end = format!(" pointers {} caps {}", report.pointers, report.capabilities);
                for text in texts {
                    assert!(text.expect("an accepted message is read").ends_with(&end));
                }
            }
            let again = capvet_capnp::vetted_segments(&one, it.limits);
            let again: Vetted = again.expect("its segments are accepted");
            assert_eq!(again.report(), one.report());
        }
        (Err(one), Err(other)) => assert_eq!(one, other),
        (one, other) => panic!("{:?} {:?}", one.is_ok(), other.is_ok()),
    }
}

/// Runs an input, for libFuzzer.
///
/// # Safety
///
/// `data` has to be the address of `size` bytes.
#[no_mangle]
pub unsafe extern "C" fn LLVMFuzzerTestOneInput(data: *const u8, size: usize) -> i32 {
    if size == 0 || size > MOST {
        return 0;
    }
    let data = std::slice::from_raw_parts(data, size);
    if let Some(mut it) = Input::of(data) {
        if let Ok(message) = vet(&it) {
            canonical(&mut it, message.as_message());
        }
        segments(&it);
        exclusive(&mut it);
        streams(&mut it);
        paths(&mut it);
        readers(&mut it);
        explaining::explain(it.bytes, it.limits);
        errors::errors(&mut it);
        errors::packed_message(&mut it);
        errors::for_capnp(&it);
        errors::readers(&it);
    }
    0
}
