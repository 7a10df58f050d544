//! What the errors say and become, the paths of refusals, and packed messages.

use crate::input::Input;
use capnp::message::ReaderSegments;
use capvet::{
    ExclusiveError, FrameError, Limits, PackError, Path, Reason, Refusal, Step, UnpackMessageError,
    Unpacking, VetError,
};
use std::fmt::{Debug, Display};
use std::io;

/// An error has a text, and keeps it as an error of `std::io`.
fn check<T, E: Copy + Debug + Display + Into<io::Error>>(result: Result<T, E>) {
    if let Err(error) = result {
        assert_ne!(error.to_string(), "");
        assert_ne!(format!("{error:?}"), "");
        assert_eq!(error.into().to_string(), error.to_string());
    }
}

/// An error of a frame keeps its text as an error of any call.
fn check_frame(error: FrameError) {
    check::<(), _>(Err(error));
    check::<(), _>(Err(UnpackMessageError::from(error)));
    let more_helps = matches!(error, FrameError::NoMessage | FrameError::Truncated { .. });
    assert_eq!(error.required().is_some(), more_helps);
    let texts = [
        VetError::from(error).to_string(),
        ExclusiveError::from(VetError::from(error)).to_string(),
        PackError::from(error).to_string(),
        UnpackMessageError::from(error).to_string(),
        capvet_capnp::Error::from(VetError::from(error)).to_string(),
    ];
    assert!(texts.iter().all(|text| *text == error.to_string()));
}

/// The path of a refusal leads to a node, or to the pointer that is refused.
fn check_path(it: &Input, refusal: Refusal) {
    check::<(), _>(Err(refusal));
    assert_eq!(VetError::from(refusal).to_string(), refusal.to_string());
    assert_eq!(refusal.reason.to_string(), VetError::from(refusal).name());
    assert_eq!(refusal.reason.name().parse::<Reason>(), Ok(refusal.reason));
    if let Some(path) = refusal.path(it.bytes, it.limits) {
        let _ = capvet::peek(it.bytes, &path, it.limits);
        assert_eq!(path.to_string().parse::<Path>().as_ref(), Ok(&path));
        let mut steps = [Step::Pointer(7); 256];
        let into = refusal.path_into(it.bytes, it.limits, &mut steps);
        assert_eq!(into, Some(path.as_ref()));
    }
}

/// Of separate segments the first that ends inside a word is named, before what is wrong with the others.
fn check_cut_segments(it: &mut Input) {
    let (one, other) = it.bytes.split_at(it.choose(it.bytes.len() + 1));
    let cut = [one, other]
        .iter()
        .position(|segment| segment.len() % 8 != 0);
    match capvet::vet_segments(&[one, other], it.limits) {
        Err(error) => {
            match error.error {
                VetError::Frame(FrameError::BadSegment { index, .. }) => {
                    assert_eq!(cut, Some(index))
                }
                _ => assert_eq!(cut, None),
            }
            check::<(), _>(Err(error.error));
        }
        Ok(message) => assert!(cut.is_none() && message.as_message().segments().eq([one, other])),
    }
}

/// The errors of all calls.
pub fn errors(it: &mut Input) {
    let (bytes, limits) = (it.bytes, it.limits);
    if let Err(error) = capvet::frame_length(bytes, limits) {
        check_frame(error);
    }
    let verdict = capvet::vet(bytes, limits);
    check(verdict);
    if let Err(VetError::Refused(refusal)) = verdict {
        check_path(it, refusal);
    }
    let mut small = vec![0; it.choose(20)];
    let mut marks = vec![0; it.choose(2)];
    let steps = [Step::Pointer(it.choose(3) as u16)];
    let text = String::from_utf8_lossy(&bytes[..it.choose(bytes.len() + 1) % 20]);
    check(capvet::vet_exclusive(bytes, limits, &mut marks));
    if let Ok(message) = verdict {
        check(message.canonical_into(&mut small));
    }
    match text.parse::<Path>() {
        Ok(path) => assert_eq!(path.to_string(), text),
        Err(error) => check::<(), _>(Err(error)),
    }
    check(capvet::peek(bytes, steps, limits));
    let mut nodes = capvet::peek_range(bytes, steps, 0, limits);
    let first = nodes.clone().next();
    assert_eq!(nodes.next(), first);
    if let Some(found) = first {
        check(found);
    }
    check(capvet::pack_words(bytes));
    check(capvet::pack_words_into(bytes, &mut small));
    check(capvet::unpack_words(bytes, it.choose(99)));
    check(capvet::unpack_words_into(bytes, &mut small));
    check(capvet::pack_message_into(bytes, &mut small));
    check_cut_segments(it);
}

/// A message that is packed by itself is unpacked to its frame, in pieces of any size.
pub fn packed_message(it: &mut Input) {
    let packed = match capvet::pack_message(it.bytes) {
        Ok(packed) => packed,
        Err(error) => return check::<(), _>(Err(error)),
    };
    let (length, limits) = (it.bytes.len(), Limits::DEFAULT);
    let (mut rest, mut held) = (&packed[..0], 0);
    let (mut out, mut state) = (vec![0; it.choose(64)], Unpacking::default());
    loop {
        match capvet::unpack_message(&mut rest, limits, &mut out, &mut state) {
            Ok(found) => break assert!(found == length && rest.is_empty() && held == packed.len()),
            Err(error @ UnpackMessageError::BufferTooSmall { required, .. }) => {
                check::<(), _>(Err(error));
                assert_eq!(error.required(), None);
                out.resize(required as usize, 0);
            }
            Err(error) => {
                check::<(), _>(Err(error));
                assert!(error.required() > Some(0) && held < packed.len());
                let begin = held - rest.len();
                held = packed.len().min(held + 1 + it.choose(20));
                rest = &packed[begin..held];
            }
        }
    }
    // (the padding of a table is packed as zeros)
    assert_eq!(out[8..length].len(), it.bytes[8..length].len());
    assert_eq!(
        capvet::unpack_words(&packed, length).as_deref(),
        Ok(&out[..length])
    );
    assert!(length as u64 <= limits.frame_bound());
}

/// The options for the crate `capnp` are never below those that are needed.
pub fn for_capnp(it: &Input) {
    match capvet_capnp::vetted(it.bytes, it.limits) {
        Ok(vetted) => {
            let report = vetted.report();
            assert_eq!(vetted.len(), report.segments as usize);
            for options in [
                capvet_capnp::options(report, 1),
                capvet_capnp::options_for(it.limits),
            ] {
                assert!(options.traversal_limit_in_words >= Some(report.reader_words(1) as usize));
                assert!(options.nesting_limit >= report.reader_nesting() as i32);
            }
            assert!(format!("{:?}", vetted).starts_with("Vetted"));
        }
        Err(error) => {
            let text = error.to_string();
            assert_eq!(error.error().to_string(), text);
            assert_eq!(io::Error::from(error).to_string(), text);
            let expected = format!("Failed: {text}");
            assert_eq!(capnp::Error::from(error).to_string(), expected);
        }
    }
}

/// A reader that is left gives back what it has not read, and the part of a message that it holds.
pub fn readers(it: &Input) {
    let (bytes, limits) = (it.bytes, it.limits);
    let mut plain = capvet::read_messages(bytes, limits);
    let mut packed = capvet::read_packed_messages(bytes, limits);
    let mut all = capvet::messages(bytes, limits);
    for _ in 0..2 {
        assert_eq!(
            plain
                .next()
                .and_then(Result::ok)
                .map(capvet::MessageBuf::into_bytes),
            all.next()
                .and_then(Result::ok)
                .map(|message| message.bytes().to_vec())
        );
        if let Some(Err(error)) = packed.next() {
            let text = error.to_string();
            assert_ne!(format!("{error:?}"), "");
            assert_eq!(io::Error::from(error).to_string(), text);
        }
    }
    assert!(format!("{:?}", plain).starts_with("ReadMessages"));
    assert!(format!("{:?}", packed).starts_with("ReadMessages"));
    assert!(format!("{:?}", all).starts_with("Messages"));
    assert!(bytes.ends_with(all.rest()));
    let held = plain.partial().len();
    let left = plain.into_inner();
    assert!(bytes.ends_with(left) && held + left.len() <= bytes.len());
    assert!(bytes.ends_with(packed.into_inner()));
    let many = vec![&bytes[..0]; 511 + bytes.len() % 4];
    let verdict = capvet::vet_segments(&many, it.limits);
    assert!(verdict.is_err());
}
