//! Messages that own their bytes, and those that aren't accepted.

use crate::{vet, Explanation, FrameError, Limits, Message, Path, Report, VetError};
use alloc::vec::Vec;
use core::fmt;

/// A message that was vetted, with its bytes. Only vetting makes one, so a function that takes it needs no other check.
#[derive(Clone, Debug, PartialEq, Eq, Hash)]
pub struct MessageBuf {
    bytes: Vec<u8>,
    report: Report,
}

impl MessageBuf {
    pub(crate) const fn of(bytes: Vec<u8>, report: Report) -> Self {
        Self { bytes, report }
    }

    /// Vets the message that `bytes` are, as [`vet`] does, and keeps them.
    ///
    /// # Errors
    ///
    /// Those of [`vet`], with the bytes.
    ///
    /// # Examples
    ///
    /// ```
    /// use capvet::{Limits, MessageBuf};
    ///
    /// let message = MessageBuf::vet(vec![0, 0, 0, 0, 1, 0, 0, 0, 0, 0, 0, 0, 0, 0, 0, 0], Limits::DEFAULT)?;
    /// assert_eq!(message.report().pointers, 1);
    /// # Ok::<(), capvet::NotAccepted>(())
    /// ```
    pub fn vet(bytes: Vec<u8>, limits: Limits) -> Result<Self, NotAccepted> {
        match vet(&bytes, limits) {
            Ok(message) => {
                let report = *message.report();
                Ok(Self { bytes, report })
            }
            Err(error) => Err(NotAccepted::of(error, bytes, limits)),
        }
    }

    /// The message, which borrows the bytes: it has the nodes, the segments and the canonical form.
    #[must_use]
    pub fn as_message(&self) -> Message<'_> {
        Message::of(&self.bytes, self.report)
    }

    /// The bytes of its frame.
    #[must_use]
    pub fn bytes(&self) -> &[u8] {
        &self.bytes
    }

    /// The bytes of its frame, which the caller then owns.
    #[must_use]
    pub fn into_bytes(self) -> Vec<u8> {
        self.bytes
    }

    /// The numbers of its tree.
    #[must_use]
    pub const fn report(&self) -> &Report {
        &self.report
    }
}

impl From<Message<'_>> for MessageBuf {
    fn from(message: Message<'_>) -> Self {
        message.to_buf()
    }
}

/// A message of a stream that isn't accepted: why, where in the stream, and its bytes.
#[derive(Clone, PartialEq, Eq, Hash)]
#[non_exhaustive]
pub struct NotAccepted {
    /// The reason.
    pub error: VetError,
    /// The number of the message in its stream, from 0.
    pub number: u64,
    /// How many bytes come before it in its stream: packed bytes of a packed stream.
    pub offset: u64,
    /// Its bytes, unpacked, for a log: no reader may have them. Of a broken frame they are what had come.
    pub unvetted: Vec<u8>,
    limits: Limits,
}

impl NotAccepted {
    pub(crate) const fn of(error: VetError, unvetted: Vec<u8>, limits: Limits) -> Self {
        Self {
            error,
            number: 0,
            offset: 0,
            unvetted,
            limits,
        }
    }

    /// The path to the pointer that is refused, such as `/p0/i7/p2`: which field it is. It is found by one more walk up to this
    /// pointer. `None` if the error names no pointer.
    #[must_use]
    pub fn path(&self) -> Option<Path> {
        match &self.error {
            VetError::Refused(refusal) => refusal.path(&self.unvetted, self.limits),
            VetError::Frame(_) => None,
        }
    }

    /// The path to the other pointer of an overlap; see [`Refusal::earlier_path`](crate::Refusal::earlier_path).
    #[must_use]
    pub fn earlier_path(&self) -> Option<Path> {
        match &self.error {
            VetError::Refused(refusal) => refusal.earlier_path(&self.unvetted, self.limits),
            VetError::Frame(_) => None,
        }
    }

    /// Why the message is refused, as lines for a log; see [`Refusal::explain`](crate::Refusal::explain). Of a broken frame it is
    /// one line, about the words of it that had come.
    pub fn explain(&self) -> Explanation<'_> {
        Explanation {
            bytes: &self.unvetted,
            limits: self.limits,
            overlap: match &self.error {
                VetError::Refused(refusal) => refusal.overlap(),
                VetError::Frame(_) => None,
            },
        }
    }
}

/// As that of the error.
impl fmt::Display for NotAccepted {
    fn fmt(&self, f: &mut fmt::Formatter<'_>) -> fmt::Result {
        self.error.fmt(f)
    }
}

// (how many bytes it has, and not the bytes: they may be many)
impl fmt::Debug for NotAccepted {
    fn fmt(&self, f: &mut fmt::Formatter<'_>) -> fmt::Result {
        f.debug_struct("NotAccepted")
            .field("error", &self.error)
            .field("number", &self.number)
            .field("offset", &self.offset)
            .field("unvetted", &self.unvetted.len())
            .finish_non_exhaustive()
    }
}

/// Vets a message of which each segment is a buffer of its own, as readers of RPC hold it. It copies them into one frame, which
/// the message has.
///
/// # Errors
///
/// The first of these that applies.
///
/// - [`FrameError::NoMessage`]: there are no segments.
/// - [`FrameError::TooManySegments`]: there are more than 512.
/// - [`FrameError::BadSegment`]: the length of one is not a multiple of 8.
/// - [`FrameError::TooLarge`]: all segments have more words than the limits allow.
/// - [`VetError::Refused`]: as by [`vet`].
///
/// # Examples
///
/// ```
/// use capvet::{FrameError, Limits, VetError};
///
/// // A far pointer to a landing pad of zeros at the start of segment 1, which isn't strict.
/// let far = [2, 0, 0, 0, 1, 0, 0, 0];
/// let error = capvet::vet_segments(&[&far, &[0; 8]], Limits::DEFAULT).unwrap_err();
/// assert_eq!(error.to_string(), "refused NullPad at 0:0 pointers 1");
/// let message = capvet::vet_segments(&[&[0; 8], &[0; 16]], Limits::DEFAULT)?;
/// assert_eq!((message.report().length, message.report().segments), (40, 2));
/// let bad = capvet::vet_segments(&[&far, &[0; 7]], Limits::DEFAULT).unwrap_err();
/// assert!(matches!(bad.error, VetError::Frame(FrameError::BadSegment { index: 1, .. })));
/// # Ok::<(), VetError>(())
/// ```
pub fn vet_segments(segments: &[&[u8]], limits: Limits) -> Result<MessageBuf, NotAccepted> {
    match sizes_fault(segments, limits) {
        Some(error) => Err(NotAccepted::of(error.into(), Vec::new(), limits)),
        None => MessageBuf::vet(framed(segments), limits),
    }
}

// Why these segments make no frame within the limits.
fn sizes_fault(segments: &[&[u8]], limits: Limits) -> Option<FrameError> {
    if segments.is_empty() {
        return Some(FrameError::NoMessage);
    }
    if segments.len() > MOST_SEGMENTS {
        let count = segments.len() as u64;
        return Some(FrameError::TooManySegments { count });
    }
    if let Some(index) = segments.iter().position(|it| it.len() % 8 != 0) {
        return Some(FrameError::BadSegment { index });
    }
    let words = segments.iter().map(|it| it.len() as u64 / 8).sum();
    (words > limits.message_words()).then_some(FrameError::TooLarge { words })
}

const MOST_SEGMENTS: usize = 512;

// The frame of these segments, of which there are at most 512 with at most `Limits::MAX_MESSAGE_WORDS`.
fn framed(segments: &[&[u8]]) -> Vec<u8> {
    let table = (segments.len() / 2 + 1) * 8;
    let length = segments.iter().map(|it| it.len()).sum::<usize>();
    let mut frame = Vec::with_capacity(table + length);
    frame.extend(((segments.len() - 1) as u32).to_le_bytes());
    for segment in segments {
        frame.extend(((segment.len() / 8) as u32).to_le_bytes());
    }
    frame.resize(table, 0);
    for segment in segments {
        frame.extend_from_slice(segment);
    }
    frame
}

/// Vets a message without a table: the words of one segment, as [`Message::canonical`] returns them. It copies them into a frame,
/// which the message has.
///
/// To check words that were signed, use [`is_canonical_words`](crate::is_canonical_words).
///
/// # Errors
///
/// - [`FrameError::NoMessage`], [`FrameError::Truncated`], [`FrameError::TooLarge`]: there are none, they end inside a word, or
///   they are more than the limits allow.
/// - [`VetError::Refused`]: as by [`vet`]. Canonical words may be amplified.
///
/// # Examples
///
/// ```
/// use capvet::Limits;
///
/// let message = capvet::vet_words(&[0; 8], Limits::DEFAULT)?;
/// assert_eq!(message.bytes(), [0, 0, 0, 0, 1, 0, 0, 0, 0, 0, 0, 0, 0, 0, 0, 0]);
/// # Ok::<(), capvet::VetError>(())
/// ```
pub fn vet_words(words: &[u8], limits: Limits) -> Result<MessageBuf, NotAccepted> {
    if words.is_empty() {
        return vet_segments(&[], limits);
    }
    match words.len() % 8 {
        0 => vet_segments(&[words], limits),
        rest => {
            let required = (words.len() - rest) as u64 + 8;
            let error = FrameError::Truncated { required };
            Err(NotAccepted::of(error.into(), Vec::new(), limits))
        }
    }
}
