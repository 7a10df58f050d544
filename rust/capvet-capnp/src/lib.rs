//! Checks untrusted Cap'n Proto messages before the crate `capnp` reads them. A service receives a message and reads it:
//!
//! ```
//! use capnp::message::Reader;
//! use capvet::Limits;
//! use capvet_capnp::Vetted;
//!
//! /// The reader of a message that a peer has sent.
//! fn receive(received: Vec<u8>) -> capnp::Result<Reader<Vetted<'static>>> {
//!     Ok(capvet_capnp::vetted(received, Limits::DEFAULT)?.into_reader())
//! }
//!
//! let mut builder = capnp::message::Builder::new_default();
//! builder.set_root("a text")?;
//! let reader = receive(capnp::serialize::write_message_to_words(&builder))?;
//! assert_eq!(reader.get_root::<capnp::text::Reader>()?, "a text");
//! # Ok::<(), capnp::Error>(())
//! ```
//!
//! [`vetted`] vets bytes: they have to be one message and nothing else, as for [`capvet::vet`]. [`Vetted::into_reader`] sets
//! limits under which the reader reads the whole message. They are tested, not proved, and schemas are not checked. So handle
//! the errors of getters, as without capvet. A [`Message`] that was vetted otherwise becomes a [`Vetted`] without a second
//! vetting.
//!
//! Each minor version of `capnp` has other types, so there is a version of this crate for each: take the one with the same minor
//! number. `capvet_capnp` 0.27 is for `capnp` 0.27, and the code that `capnpc` 0.27 generates. There are versions for 0.14 to
//! 0.27. It was tested with `capnp` 0.14.11 and 0.27.2, and before its last change with 0.19.2. The versions between were not
//! built.

#![forbid(unsafe_code)]
#![warn(missing_docs, missing_debug_implementations)]

use capnp::message::{Reader, ReaderOptions, ReaderSegments};
use capnp::Word;
use capvet::{Limits, Message, MessageBuf, NotAccepted, Report, VetError};
use std::borrow::Cow;
use std::fmt;

const WORD: usize = 8;

/// The error of a message that isn't accepted. The operator `?` leads from it to [`capnp::Error`], to [`std::io::Error`] and
/// to [`VetError`].
#[derive(Clone, Copy, Debug, PartialEq, Eq, Hash)]
pub struct Error(VetError);

impl Error {
    /// Why, with the length of the frame and the pointer where there is one.
    #[must_use]
    pub const fn error(&self) -> &VetError {
        &self.0
    }
}

impl From<VetError> for Error {
    fn from(error: VetError) -> Self {
        Self(error)
    }
}

impl From<NotAccepted> for Error {
    fn from(error: NotAccepted) -> Self {
        Self(error.error)
    }
}

impl From<Error> for VetError {
    fn from(error: Error) -> Self {
        error.0
    }
}

impl From<Error> for capnp::Error {
    fn from(error: Error) -> Self {
        Self::failed(error.to_string())
    }
}

impl From<Error> for std::io::Error {
    fn from(error: Error) -> Self {
        error.0.into()
    }
}

/// As in the lines of the program, where it has one.
impl fmt::Display for Error {
    fn fmt(&self, f: &mut fmt::Formatter<'_>) -> fmt::Result {
        self.0.fmt(f)
    }
}

impl std::error::Error for Error {}

/// An accepted message for a reader, with its bytes or a borrow of them: it is made of a [`Message`], of a [`MessageBuf`], or by
/// [`vetted`].
pub struct Vetted<'b> {
    frame: Frame<'b>,
    // Where each segment begins and ends in the frame, in bytes.
    segments: Vec<(usize, usize)>,
    report: Report,
}

// A frame at an address that is a multiple of 8, so that each of its segments is at one, those without words too.
enum Frame<'b> {
    Borrowed(&'b [u8]),
    Owned(Vec<u8>),
    Copied(Vec<Word>),
}

impl<'b> Frame<'b> {
    fn of(bytes: Cow<'b, [u8]>) -> Self {
        let is_aligned = bytes.as_ptr() as usize % WORD == 0;
        match bytes {
            Cow::Borrowed(bytes) if is_aligned => Self::Borrowed(bytes),
            Cow::Owned(bytes) if is_aligned => Self::Owned(bytes),
            bytes => {
                let mut words = Word::allocate_zeroed_vec(bytes.len() / WORD);
                Word::words_to_bytes_mut(&mut words).copy_from_slice(&bytes);
                Self::Copied(words)
            }
        }
    }

    fn bytes(&self) -> &[u8] {
        match self {
            Self::Borrowed(bytes) => bytes,
            Self::Owned(bytes) => bytes,
            Self::Copied(words) => Word::words_to_bytes(words),
        }
    }
}

// Where each segment of a message begins and ends.
fn places(message: Message<'_>) -> Vec<(usize, usize)> {
    let all = message.segments().map(<[u8]>::len);
    let mut end = message.bytes().len() - all.clone().sum::<usize>();
    let place = |length| {
        let start = end;
        end += length;
        (start, end)
    };
    all.map(place).collect()
}

/// The message isn't vetted again. Its bytes are copied if they are at an address that is no multiple of 8, since the crate
/// `capnp` refuses those.
impl<'b> From<Message<'b>> for Vetted<'b> {
    fn from(message: Message<'b>) -> Self {
        Self {
            segments: places(message),
            report: *message.report(),
            frame: Frame::of(message.bytes().into()),
        }
    }
}

/// As of a [`Message`]; it owns the bytes.
impl From<MessageBuf> for Vetted<'_> {
    fn from(message: MessageBuf) -> Self {
        Self {
            segments: places(message.as_message()),
            report: *message.report(),
            frame: Frame::of(message.into_bytes().into()),
        }
    }
}

impl Vetted<'_> {
    /// Returns the report of the message.
    #[must_use]
    pub fn report(&self) -> &Report {
        &self.report
    }

    /// Returns a reader of the message, with [`options`] for one reading. It owns what the message owned, so a function can
    /// return it.
    #[must_use]
    pub fn into_reader(self) -> Reader<Self> {
        let options = options(&self.report, 1);
        Reader::new(self, options)
    }
}

impl fmt::Debug for Vetted<'_> {
    fn fmt(&self, f: &mut fmt::Formatter<'_>) -> fmt::Result {
        let mut shown = f.debug_struct("Vetted");
        shown.field("report", &self.report).finish_non_exhaustive()
    }
}

impl ReaderSegments for Vetted<'_> {
    fn get_segment(&self, index: u32) -> Option<&[u8]> {
        let (start, end) = *self.segments.get(index as usize)?;
        self.frame.bytes().get(start..end)
    }

    fn len(&self) -> usize {
        self.segments.len()
    }
}

// These limits, none of them below the defaults of the crate `capnp`.
fn raised(words: u64, nesting: u32) -> ReaderOptions {
    let mut options = ReaderOptions::new();
    let words = usize::try_from(words).unwrap_or(usize::MAX);
    let traversal = options.traversal_limit_in_words.map(|it| it.max(words));
    let nesting = i32::try_from(nesting).unwrap_or(i32::MAX);
    let nesting = options.nesting_limit.max(nesting);
    options.traversal_limit_in_words(traversal);
    options.nesting_limit(nesting);
    options
}

/// Returns options under which the crate `capnp` reads a whole message with this report as many times. They are never below
/// its defaults. The report is that of any call that accepted the message.
///
/// # Examples
///
/// A message that is read four times:
///
/// ```
/// use capnp::message::Reader;
/// use capvet::Limits;
///
/// let message = [0, 0, 0, 0, 1, 0, 0, 0, 0, 0, 0, 0, 0, 0, 0, 0];
/// let message = capvet_capnp::vetted(&message[..], Limits::DEFAULT)?;
/// let options = capvet_capnp::options(message.report(), 4);
/// let reader = Reader::new(message, options);
/// # reader.get_root::<capnp::any_pointer::Reader>()?;
/// # Ok::<(), Box<dyn std::error::Error>>(())
/// ```
#[must_use]
pub fn options(report: &Report, readings: u32) -> ReaderOptions {
    raised(report.reader_words(readings), report.reader_nesting())
}

/// Returns options under which the crate `capnp` reads any message once that is accepted under these limits, as for a stream
/// whose messages are not known yet. They are never below its defaults.
///
/// # Examples
///
/// ```
/// use capvet::Limits;
///
/// let options = capvet_capnp::options_for(Limits::DEFAULT);
/// assert_eq!(options.nesting_limit, 129);
/// assert_eq!(options.traversal_limit_in_words, Some(3 * 8_388_608 + 2));
/// ```
#[must_use]
pub fn options_for(limits: Limits) -> ReaderOptions {
    let words = limits.message_words();
    // (an unamplified message is charged at most this much more than it has words)
    let charge = match limits.allow_amplified() {
        true => limits.charge(),
        false => limits.charge().min(words + Limits::SLACK),
    };
    raised(words.max(3 * charge + 2), 2 * limits.depth() + 1)
}

/// Vets the message that `bytes` are, and returns it for a reader.
///
/// The message owns the bytes of a `Vec<u8>`. So [`Vetted::into_reader`] gives a reader that a function can return. It borrows
/// those of a `&[u8]`. It copies them if they are at an address that is no multiple of 8, since the crate `capnp` refuses those.
/// It allocates two numbers for each segment besides.
///
/// # Errors
///
/// Those of [`capvet::vet`].
///
/// # Examples
///
/// ```
/// use capnp::message::{Reader, ReaderSegments};
/// use capvet::Limits;
///
/// // A text of one letter, and a segment without words.
/// let mut frame = vec![1, 0, 0, 0, 2, 0, 0, 0, 0, 0, 0, 0, 0, 0, 0, 0];
/// frame.extend([1, 0, 0, 0, 0x12, 0, 0, 0, b'a', 0, 0, 0, 0, 0, 0, 0]);
/// let message = capvet_capnp::vetted(&frame, Limits::DEFAULT)?;
/// assert_eq!((message.len(), message.report().charge), (2, 1));
/// assert_eq!(message.get_segment(1), Some(&[][..]));
/// assert_eq!(message.into_reader().get_root::<capnp::text::Reader>()?, "a");
///
/// // A struct whose pointer leads back to itself.
/// let cycle = vec![0, 0, 0, 0, 1, 0, 0, 0, 0xfc, 0xff, 0xff, 0xff, 0, 0, 1, 0];
/// let error = capvet_capnp::vetted(cycle, Limits::DEFAULT).unwrap_err();
/// assert_eq!(error.to_string(), "refused DepthLimit at 0:0 pointers 65");
/// # Ok::<(), capnp::Error>(())
/// ```
///
/// An owner that may answer with other bytes when it is asked again isn't taken:
///
/// ```compile_fail
/// let bytes: std::rc::Rc<dyn AsRef<[u8]>> = std::rc::Rc::new([0; 8]);
/// let _ = capvet_capnp::vetted(bytes, capvet::Limits::DEFAULT);
/// ```
pub fn vetted<'b>(bytes: impl Into<Cow<'b, [u8]>>, limits: Limits) -> Result<Vetted<'b>, Error> {
    match bytes.into() {
        Cow::Borrowed(bytes) => Ok(capvet::vet(bytes, limits)?.into()),
        Cow::Owned(bytes) => Ok(MessageBuf::vet(bytes, limits)?.into()),
    }
}

/// Vets a message whose segments the crate `capnp` holds already, such as the `OwnedSegments` of `capnp::serialize` and of
/// `capnp_futures`, and returns it for a reader. It copies them into one frame, which the message has.
///
/// # Errors
///
/// Those of [`capvet::vet_segments`].
///
/// # Examples
///
/// ```
/// use capnp::message::ReaderOptions;
/// use capvet::Limits;
///
/// let message = [0, 0, 0, 0, 1, 0, 0, 0, 0, 0, 0, 0, 0, 0, 0, 0];
/// let received = capnp::serialize::read_message(&message[..], ReaderOptions::new())?;
/// let reader = capvet_capnp::vetted_segments(&received.into_segments(), Limits::DEFAULT)?.into_reader();
/// # reader.get_root::<capnp::any_pointer::Reader>()?;
/// # Ok::<(), capnp::Error>(())
/// ```
pub fn vetted_segments<S: ReaderSegments>(
    segments: &S,
    limits: Limits,
) -> Result<Vetted<'static>, Error> {
    let slices: Vec<_> = (0..)
        .map_while(|index| segments.get_segment(index))
        .collect();
    Ok(capvet::vet_segments(&slices, limits)?.into())
}

#[cfg(test)]
mod tests {
    use super::*;
    use capvet::FrameError;

    // A text of one letter in segment 1, which a far pointer leads to, and a segment without words.
    const FAR: [u8; 48] = [
        2, 0, 0, 0, 1, 0, 0, 0, 2, 0, 0, 0, 0, 0, 0, 0, // the table of three
        2, 0, 0, 0, 1, 0, 0, 0, // to word 0 of segment 1
        1, 0, 0, 0, 0x12, 0, 0, 0, b'a', 0, 0, 0, 0, 0, 0, 0, // the pad, and the text
        9, 9, 9, 9, 9, 9, 9, 9,
    ];

    // These bytes at this distance after a multiple of 8.
    fn placed(bytes: &[u8], shift: usize) -> (Vec<Word>, std::ops::Range<usize>) {
        let mut words = Word::allocate_zeroed_vec(bytes.len() / WORD + 2);
        let range = shift..shift + bytes.len();
        Word::words_to_bytes_mut(&mut words)[range.clone()].copy_from_slice(bytes);
        (words, range)
    }

    #[test]
    fn segments_are_aligned_wherever_the_bytes_are() {
        for shift in 0..WORD {
            let (words, range) = placed(&FAR, shift);
            let bytes = &Word::words_to_bytes(&words)[range];
            let (message, rest) = capvet::vet_prefix(bytes, Limits::DEFAULT).unwrap();
            let message = Vetted::from(message);
            assert_eq!((message.len(), rest), (3, &[9; 8][..]));
            for (index, length) in [8, 16, 0].into_iter().enumerate() {
                let segment = message.get_segment(index as u32).unwrap();
                assert_eq!(
                    (segment.len(), segment.as_ptr() as usize % WORD),
                    (length, 0)
                );
            }
            assert!(message.get_segment(3).is_none());
            let is_borrowed = message.get_segment(0).unwrap().as_ptr() == bytes[16..].as_ptr();
            assert_eq!(is_borrowed, shift == 0);
            assert_eq!(text(message.into_reader()), "a");
        }
    }

    // The text that a message is.
    fn text(reader: Reader<Vetted<'_>>) -> String {
        let text = reader.get_root::<capnp::text::Reader>();
        // (older versions have other types of text)
        format!("{:?}", text.unwrap()).replace('"', "")
    }

    #[test]
    fn a_message_owns_its_bytes() {
        let received = |bytes: Vec<u8>| vetted(bytes, Limits::DEFAULT).unwrap().into_reader();
        let message = &FAR[..40];
        assert_eq!(text(received(message.to_vec())), "a");
        assert_eq!(
            text(vetted(message, Limits::DEFAULT).unwrap().into_reader()),
            "a"
        );
        let owned = message.to_vec();
        let start = owned.as_ptr();
        let kept = Vetted::from(MessageBuf::vet(owned, Limits::DEFAULT).unwrap());
        let is_kept = kept.get_segment(0).unwrap().as_ptr() == start.wrapping_add(16);
        assert_eq!(is_kept, start as usize % WORD == 0);
        assert!(format!("{kept:?}").contains("charge: 2"));
    }

    #[test]
    fn segments_of_other_readers_are_vetted() {
        for (bytes, expected) in [
            (&FAR[..40], "accepted charge 2 depth 1 pointers 1 caps 0"),
            (
                &[0, 0, 0, 0, 1, 0, 0, 0, 0xfc, 0xff, 0xff, 0xff, 0, 0, 1, 0],
                "refused DepthLimit at 0:0 pointers 65",
            ),
        ] {
            let message = capnp::serialize::read_message(bytes, ReaderOptions::new()).unwrap();
            let segments = message.into_segments();
            for verdict in [
                vetted_segments(&segments, Limits::DEFAULT),
                vetted(bytes, Limits::DEFAULT),
            ] {
                match verdict {
                    Ok(vetted) => {
                        assert_eq!(vetted.report().to_string(), expected);
                        assert_eq!(text(vetted.into_reader()), "a");
                    }
                    Err(error) => assert_eq!(error.to_string(), expected),
                }
            }
        }
    }

    #[test]
    fn options_are_raised_and_never_lowered() {
        let message = vetted(&FAR[..40], Limits::DEFAULT).unwrap();
        let report = message.report();
        let low = options(report, 4);
        assert_eq!(low.traversal_limit_in_words, Some(8 * 1024 * 1024));
        assert_eq!(low.nesting_limit, 64);
        let many = options(report, 10_000_000);
        assert_eq!(
            many.traversal_limit_in_words,
            Some(10_000_000 * (3 * 2 + 2))
        );
        // A struct in a struct, and so on for 40 levels.
        let deep: Vec<u8> = [[0, 0, 0, 0, 41, 0, 0, 0]]
            .into_iter()
            .chain([[0, 0, 0, 0, 0, 0, 1, 0]; 40])
            .chain([[0; 8]])
            .flatten()
            .collect();
        let message = vetted(deep, Limits::DEFAULT).unwrap();
        assert_eq!(options(message.report(), 1).nesting_limit, 81);
    }

    #[test]
    fn options_for_limits_serve_each_message() {
        let traversal = |limits| options_for(limits).traversal_limit_in_words;
        let least = Some(8 * 1024 * 1024);
        assert_eq!(traversal(Limits::DEFAULT.with_message_words(100)), least);
        let limits = Limits::DEFAULT
            .with_message_words(8_000_000)
            .with_charge(9_000_000);
        assert_eq!(traversal(limits), Some(3 * (8_000_000 + 4096) + 2));
        assert_eq!(
            traversal(limits.with_allow_amplified(true)),
            Some(3 * 9_000_000 + 2)
        );
        assert_eq!(options_for(limits.with_depth(1)).nesting_limit, 64);
        let most = Limits::new(
            Limits::MAX_MESSAGE_WORDS,
            Limits::MAX_CHARGE,
            Limits::MAX_DEPTH,
        );
        let most = most.unwrap();
        assert_eq!(traversal(most), Some(3 * 268_435_456 + 2));
        assert_eq!(options_for(most).nesting_limit, 513);
    }

    #[test]
    fn bytes_that_are_no_message_are_refused() {
        let error = |bytes, limits| VetError::from(vetted(bytes, limits).err().unwrap());
        assert!(matches!(
            error(&FAR[..], Limits::DEFAULT),
            VetError::Frame(FrameError::Trailing { bytes: 8, .. })
        ));
        assert!(matches!(
            error(&FAR[..39], Limits::DEFAULT),
            VetError::Frame(FrameError::Truncated { required: 40, .. })
        ));
        let none = vetted(Vec::new(), Limits::DEFAULT).unwrap_err();
        let text = none.to_string();
        assert_eq!(
            (none.error(), &text[..]),
            (&FrameError::NoMessage.into(), "NoMessage")
        );
        assert_eq!(
            std::io::Error::from(none).kind(),
            std::io::ErrorKind::UnexpectedEof
        );
        let error = capnp::Error::from(none).to_string();
        assert_eq!(error, format!("Failed: {text}"));
    }
}
