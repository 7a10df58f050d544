//! The messages of a packed stream, a piece at a time.

use crate::calls::{self, Answer, RawReport, RawUnpacking, NOTHING_UNPACKED};
use crate::{FrameError, Limits};
use core::fmt;

/// How far a packed stream is unpacked; see [`unpack_message`]. A new one is at the start of a stream.
#[derive(Clone, Debug, PartialEq, Eq)]
pub struct Unpacking(RawUnpacking);

impl Unpacking {
    /// The start of a stream.
    #[must_use]
    pub const fn new() -> Self {
        Self(NOTHING_UNPACKED)
    }

    /// How many bytes of the current message are unpacked. It is 0 after a whole message.
    #[must_use]
    pub const fn written(&self) -> usize {
        self.0.written as usize
    }
}

impl Default for Unpacking {
    fn default() -> Self {
        Self::new()
    }
}

/// The error of [`unpack_message`].
#[derive(Clone, Copy, Debug, PartialEq, Eq, Hash)]
#[non_exhaustive]
pub enum UnpackMessageError {
    /// There are no packed bytes, and no message has begun. If the stream ends here, it ends between two messages.
    NoMessage,
    /// The message needs more packed bytes. If the stream ends here, the message is cut.
    #[non_exhaustive]
    Truncated {
        /// The least length of the next `packed`, which begins with the bytes that are left. It is at most 10.
        required: usize,
    },
    /// `out` isn't that of the call before: it is shorter than what is written, or begins with a whole frame.
    OtherBuffer,
    /// The next word is there, and `out` has no space for it.
    #[non_exhaustive]
    BufferTooSmall {
        /// The least length of `out` that gets further: 8, then that of the table, then that of the whole frame. It is a
        /// claim of the sender, at most [`Limits::frame_bound`].
        required: u64,
    },
    /// The message has more than 512 segments or more words than the limits allow.
    Frame(
        /// The reason.
        FrameError,
    ),
}

impl UnpackMessageError {
    // The error of an answer other than that of an unpacked message.
    fn of(answer: Answer, required: usize, raw: &RawReport) -> Self {
        match answer {
            Answer::NO_MESSAGE => Self::NoMessage,
            Answer::TRUNCATED => Self::Truncated {
                required: raw.input_required as usize,
            },
            Answer::BUFFER_TOO_SMALL => Self::BufferTooSmall {
                required: required as u64,
            },
            Answer::BAD_LIMITS => Self::OtherBuffer,
            _ => Self::Frame(FrameError::of_frame(answer, raw)),
        }
    }

    /// The least length of the next `packed`, if more packed bytes may help: 1 if there are none, and otherwise that of
    /// [`UnpackMessageError::Truncated`].
    #[must_use]
    pub const fn required(&self) -> Option<usize> {
        match self {
            Self::NoMessage => Some(1),
            Self::Truncated { required } => Some(*required),
            _ => None,
        }
    }
}

impl fmt::Display for UnpackMessageError {
    fn fmt(&self, f: &mut fmt::Formatter<'_>) -> fmt::Result {
        match self {
            Self::NoMessage => f.write_str("NoMessage"),
            Self::Truncated { required } => write!(f, "Truncated, {required} bytes are required"),
            Self::BufferTooSmall { required } => {
                write!(f, "BufferTooSmall, {required} bytes are required")
            }
            Self::OtherBuffer => f.write_str("the buffer isn't that of the call before"),
            Self::Frame(error) => error.fmt(f),
        }
    }
}

/// Unpacks the next message of a packed stream to the start of `out`, and returns the length of its frame in bytes (encoding:
/// Packing). It takes a piece of the stream at a time, checks no pointer and allocates nothing. `Feed` does it and vets the message,
/// in memory of its own.
///
/// `packed` has the bytes that are received and not yet consumed. The call drops those that it consumes from its start.
/// Begin the next piece with the ones that are left. `state` is [`Unpacking::new`] at the start of a stream. Pass the same one
/// to each call, and an `out` that keeps the first [`Unpacking::written`] bytes of the call before.
///
/// It writes up to the end of the frame and never further. A run of words may go on into the next message: `state` keeps the
/// rest of it. So call it again before you receive more, since `state` and `packed` may hold whole messages. Of the limits
/// only [`Limits::message_words`] has an effect. An `out` of [`Limits::frame_bound`] bytes is always large enough.
///
/// # Errors
///
/// What is unpacked before an error stays in `out`, and `state` counts it. The bytes after it are unchanged.
///
/// - [`UnpackMessageError::NoMessage`] and [`UnpackMessageError::Truncated`]: receive more, and call again.
/// - [`UnpackMessageError::BufferTooSmall`]: call again with a larger `out`.
/// - [`UnpackMessageError::Frame`] with [`FrameError::TooManySegments`] or [`FrameError::TooLarge`]: the message isn't within
///   the limits. A later call returns this again.
/// - [`UnpackMessageError::OtherBuffer`]: `out` isn't that of the call before. Then nothing is consumed, and `out` and `state` are
///   unchanged.
///
/// # Examples
///
/// ```
/// use capvet::{Limits, UnpackMessageError, Unpacking};
///
/// // The null pointer, packed, of which three bytes are received at first.
/// let stream = [0x10, 1, 0, 0];
/// let (mut state, mut out) = (Unpacking::new(), [0xee; 17]);
/// let mut packed = &stream[..3];
/// let more = capvet::unpack_message(&mut packed, Limits::DEFAULT, &mut out, &mut state);
/// assert!(matches!(more, Err(UnpackMessageError::Truncated { required: 2, .. })));
/// assert_eq!((packed, state.written()), (&stream[2..3], 8));
///
/// let mut packed = &stream[2..];
/// let length = capvet::unpack_message(&mut packed, Limits::DEFAULT, &mut out, &mut state)?;
/// assert_eq!((length, packed), (16, &[][..]));
/// assert_eq!(out, [0, 0, 0, 0, 1, 0, 0, 0, 0, 0, 0, 0, 0, 0, 0, 0, 0xee]);
/// assert!(capvet::vet(&out[..length], Limits::DEFAULT).is_ok());
///
/// let end = capvet::unpack_message(&mut packed, Limits::DEFAULT, &mut out, &mut state);
/// assert_eq!(end, Err(UnpackMessageError::NoMessage));
/// # Ok::<(), UnpackMessageError>(())
/// ```
pub fn unpack_message(
    packed: &mut &[u8],
    limits: Limits,
    out: &mut [u8],
    state: &mut Unpacking,
) -> Result<usize, UnpackMessageError> {
    let done = calls::unpack_message(packed, &limits, out, &mut state.0);
    *packed = &packed[done.consumed..];
    match done.answer {
        Answer::OK => Ok(done.required),
        answer => Err(UnpackMessageError::of(answer, done.required, &done.report)),
    }
}

#[cfg(all(test, feature = "std"))]
mod tests {
    use super::*;

    const STREAM: &[u8] = include_bytes!("../../../examples/stream-of-four.bin");
    const MANY: &[u8] = include_bytes!("../../../examples/contacts-many-segments.bin");
    const LIMITS: Limits = Limits::DEFAULT;

    // The messages of the samples: the frames, packed as a whole, where runs go on from one into the next.
    fn samples() -> [(Vec<u8>, Vec<u8>); 2] {
        let nulls = [[&[0; 4][..], &[1], &[0; 11]].concat(), vec![0; 80]].concat();
        let frames = [&nulls, MANY, STREAM, &nulls].concat();
        let packed = crate::pack_words(&frames).expect("these are whole words");
        let (stream, by_parts) = (STREAM.to_vec(), crate::messages(STREAM, LIMITS));
        let by_parts = by_parts.map(|it| it.expect("it is accepted").bytes());
        let by_parts = by_parts.map(|it| crate::pack_message(it).expect("it has a frame"));
        [
            (frames, packed),
            (stream, by_parts.collect::<Vec<_>>().concat()),
        ]
    }

    // The frames of a packed stream that is received by pieces, and the error at its end. The buffer grows as is required.
    fn received(stream: &[u8], piece: usize) -> (Vec<Vec<u8>>, UnpackMessageError) {
        let (mut state, mut out, mut frames) = (Unpacking::new(), Vec::new(), Vec::new());
        let (mut from, mut end) = (0, 0);
        loop {
            let mut packed = &stream[from..end];
            let before = state.written();
            let result = unpack_message(&mut packed, LIMITS, &mut out, &mut state);
            from = end - packed.len();
            match result {
                Ok(length) => {
                    assert_eq!((state.written(), length > before), (0, true));
                    frames.push(out[..length].to_vec());
                }
                Err(UnpackMessageError::BufferTooSmall { required }) => {
                    assert!(required > out.len() as u64 && required <= LIMITS.frame_bound());
                    out.resize(required as usize, 0xee);
                }
                Err(error) if end == stream.len() => return (frames, error),
                Err(error) => {
                    let required = error.required().expect("more is received");
                    assert!(packed.len() < required && required <= 10);
                    end = (end + piece).max(from + required).min(stream.len());
                }
            }
        }
    }

    #[test]
    fn a_stream_is_unpacked_by_pieces_of_each_size() {
        for (frames, packed) in samples() {
            for piece in [1, 2, 3, 7, 8, 9, 64, 1000, packed.len()] {
                let (found, end) = received(&packed, piece);
                assert_eq!(end, UnpackMessageError::NoMessage, "pieces of {piece}");
                assert!(found.len() >= 4 && found.concat() == frames);
            }
        }
    }

    #[test]
    fn a_cut_stream_ends_between_messages_or_is_truncated() {
        let [_, (frames, packed)] = samples();
        let mut between = Vec::new();
        for length in 0..=packed.len() {
            let (found, end) = received(&packed[..length], 64);
            let found = found.concat();
            assert_eq!(found, frames[..found.len()]);
            match end {
                UnpackMessageError::NoMessage => between.push(found.len()),
                UnpackMessageError::Truncated { .. } => {}
                other => panic!("{other}"),
            }
        }
        assert_eq!(between, [0, 3144, 3584, 3760, 4472]);
    }

    #[test]
    fn what_is_not_within_the_limits_ends_the_stream() {
        for (head, limits, text) in [
            (&[0x03, 0, 2][..], LIMITS, "TooManySegments 513"),
            (&[0x10, 9], LIMITS.with_message_words(8), "TooLarge 9"),
        ] {
            let (mut state, mut out) = (Unpacking::new(), [0xee; 16]);
            let mut packed = head;
            for _ in 0..2 {
                let error = unpack_message(&mut packed, limits, &mut out, &mut state);
                let error = error.expect_err("it is refused");
                assert_eq!(
                    (error.to_string(), error.required()),
                    (text.to_owned(), None)
                );
                assert_eq!(
                    (packed, state.written(), &out[8..]),
                    (&[][..], 8, &[0xee; 8][..])
                );
            }
        }
    }

    #[test]
    fn a_call_that_does_not_go_on_changes_nothing() {
        let bad = UnpackMessageError::OtherBuffer;
        let (mut state, mut out) = (Unpacking::new(), [0xee; 32]);
        let stream = [0x10, 3, 0xff, 1, 2, 3, 4, 5, 6, 7, 8, 1];
        let mut packed = &stream[..];
        let error = unpack_message(&mut packed, LIMITS, &mut out, &mut state);
        let error = error.expect_err("a word of the run is left");
        assert_eq!(error, UnpackMessageError::Truncated { required: 8 });
        assert_eq!(
            (error.required(), packed, state.written()),
            (Some(8), &[][..], 16)
        );
        let before = state.clone();
        // (too short for what is written, and a whole frame)
        for out in [&mut [0; 15][..], &mut [0; 24]] {
            let mut packed = &stream[..];
            let error = unpack_message(&mut packed, LIMITS, out, &mut state);
            assert_eq!((error, packed, &state), (Err(bad), &stream[..], &before));
        }
        assert_eq!(bad.required(), None);
    }
}
