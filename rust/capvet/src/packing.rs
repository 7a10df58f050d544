//! Packs and unpacks, from one buffer into another.

use crate::calls::{self, Answer};
use crate::FrameError;
#[cfg(feature = "alloc")]
use alloc::{vec, vec::Vec};
use core::fmt;

/// The error of the calls that pack and unpack from one buffer into another.
#[derive(Clone, Copy, Debug, PartialEq, Eq, Hash)]
#[non_exhaustive]
pub enum PackError {
    /// The bytes are no frame.
    Frame(
        /// The reason.
        FrameError,
    ),
    /// The words end inside a word, or the packed bytes inside a group.
    Truncated,
    /// The words of the packed bytes are too many.
    #[non_exhaustive]
    TooLarge {
        /// Their length in bytes, or 0 for more than 2^53 packed bytes.
        size: u64,
    },
    /// The buffer is smaller than the result.
    #[non_exhaustive]
    BufferTooSmall {
        /// The length of the result.
        required: usize,
    },
}

impl PackError {
    // The error of an answer other than that of packed or unpacked words.
    fn of(answer: Answer, required: usize) -> Self {
        match answer {
            Answer::TRUNCATED => Self::Truncated,
            Answer::BUFFER_TOO_SMALL => Self::BufferTooSmall { required },
            _ => Self::TooLarge { size: 0 },
        }
    }
}

impl fmt::Display for PackError {
    fn fmt(&self, f: &mut fmt::Formatter<'_>) -> fmt::Result {
        match self {
            Self::Frame(error) => error.fmt(f),
            Self::Truncated => f.write_str("Truncated"),
            Self::TooLarge { size } => write!(f, "TooLarge, {size} bytes"),
            Self::BufferTooSmall { required } => {
                write!(f, "BufferTooSmall, {required} bytes are required")
            }
        }
    }
}

// The result of a call in a buffer of just its length. The call is made twice.
#[cfg(feature = "alloc")]
fn in_a_buffer(
    call: impl Fn(&mut [u8]) -> Result<usize, PackError>,
    max_size: usize,
) -> Result<Vec<u8>, PackError> {
    let required = match call(&mut []) {
        Err(PackError::BufferTooSmall { required }) => required,
        answer => return answer.map(|_| Vec::new()),
    };
    if required > max_size {
        let size = required as u64;
        return Err(PackError::TooLarge { size });
    }
    let mut out = vec![0; required];
    call(&mut out)?;
    Ok(out)
}

/// Packs the frame that `bytes` are, as libcapnp packs a message: the table and each segment by itself (encoding: Packing). It
/// checks no pointer. It allocates just the length of the packed bytes.
///
/// # Errors
///
/// - [`PackError::Frame`]: the bytes hold no complete frame, or trailing bytes follow it.
///
/// # Examples
///
/// ```
/// let message = [0, 0, 0, 0, 1, 0, 0, 0, 0, 0, 0, 0, 0, 0, 0, 0];
/// assert_eq!(capvet::pack_message(&message)?, [0x10, 1, 0, 0]);
/// let error = capvet::pack_message(&message[..15]).unwrap_err();
/// assert_eq!(error.to_string(), "Truncated, 16 bytes are required");
/// # Ok::<(), capvet::PackError>(())
/// ```
#[cfg(feature = "alloc")]
pub fn pack_message(bytes: &[u8]) -> Result<Vec<u8>, PackError> {
    in_a_buffer(|out| pack_message_into(bytes, out), usize::MAX)
}

/// Packs the frame that `bytes` are to the start of `out`, as libcapnp packs a message: the table and each segment by itself
/// (encoding: Packing). Returns the length of the packed bytes. The bytes of `out` after them are unchanged. It checks no
/// pointer and allocates nothing.
///
/// `bytes.len() / 8 * 10` bytes are always enough.
///
/// # Errors
///
/// The first of these that applies. `out` is then unchanged.
///
/// - [`PackError::Frame`]: the bytes hold no complete frame, or trailing bytes follow it.
/// - [`PackError::BufferTooSmall`]: `out` is shorter than the packed bytes.
///
/// # Examples
///
/// ```
/// // Two segments, of one word and of none. The table ends in zeros, and the first segment is zeros.
/// let message = [1, 0, 0, 0, 1, 0, 0, 0, 0, 0, 0, 0, 0, 0, 0, 0, 0, 0, 0, 0, 0, 0, 0, 0];
/// let mut out = [7; 9];
/// assert_eq!(capvet::pack_message_into(&message, &mut out), Ok(7));
/// assert_eq!(out, [0x11, 1, 1, 0, 0, 0, 0, 7, 7]);
/// assert_eq!(capvet::pack_words_into(&message, &mut out), Ok(5));
/// assert_eq!(out[..5], [0x11, 1, 1, 0, 1]);
/// ```
pub fn pack_message_into(bytes: &[u8], out: &mut [u8]) -> Result<usize, PackError> {
    let (answer, required, raw) = calls::pack_message(bytes, out);
    match answer {
        Answer::OK => Ok(required),
        Answer::BUFFER_TOO_SMALL => Err(PackError::BufferTooSmall { required }),
        _ => Err(PackError::Frame(FrameError::of_frame(answer, &raw))),
    }
}

/// Packs words of eight bytes, as [`pack_words_into`] does, and returns the packed bytes. It allocates just their length.
///
/// # Errors
///
/// - [`PackError::Truncated`]: the length of `words` is not a multiple of 8.
///
/// # Examples
///
/// ```
/// assert_eq!(capvet::pack_words(&[0; 2048])?, [0, 255]);
/// assert_eq!(capvet::pack_words(&[0; 15]), Err(capvet::PackError::Truncated));
/// # Ok::<(), capvet::PackError>(())
/// ```
#[cfg(feature = "alloc")]
pub fn pack_words(words: &[u8]) -> Result<Vec<u8>, PackError> {
    in_a_buffer(|out| pack_words_into(words, out), usize::MAX)
}

/// Packs words of eight bytes, which need not be a message, to the start of `out` (encoding: Packing). Returns the length
/// of the packed bytes. The bytes of `out` after them are unchanged. It allocates nothing.
///
/// To send a message use [`pack_message_into`]: libcapnp refuses a packed message with a run that goes on from the table or a
/// segment into the next, and this can write such runs.
///
/// `words.len() / 8 * 10` bytes are always enough.
///
/// # Errors
///
/// The first of these that applies. `out` is then unchanged.
///
/// - [`PackError::Truncated`]: the length of `words` is not a multiple of 8.
/// - [`PackError::BufferTooSmall`]: `out` is shorter than the packed bytes.
///
/// # Examples
///
/// ```
/// let mut out = [7; 6];
/// assert_eq!(capvet::pack_words_into(&[0; 2048], &mut out), Ok(2));
/// assert_eq!(out, [0, 255, 7, 7, 7, 7]);
/// let small = capvet::pack_words_into(&[1; 8], &mut out).unwrap_err();
/// assert_eq!(small.to_string(), "BufferTooSmall, 10 bytes are required");
/// ```
pub fn pack_words_into(words: &[u8], out: &mut [u8]) -> Result<usize, PackError> {
    let (answer, required) = calls::pack(words, out);
    match answer {
        Answer::OK => Ok(required),
        _ => Err(PackError::of(answer, required)),
    }
}

/// Unpacks all of `packed`, as [`unpack_words_into`] does, and returns the bytes of the words, at most `max_size` of them.
///
/// Two packed bytes may encode 2 KiB. So it computes the length of the words first, and allocates just that length, if it
/// is at most `max_size`.
///
/// # Errors
///
/// The first of these that applies. Nothing is then allocated.
///
/// - [`PackError::Truncated`]: the packed bytes end inside a group.
/// - [`PackError::TooLarge`]: the words have more than `max_size` bytes, or there are more than 2^53 packed bytes.
///
/// # Examples
///
/// ```
/// use capvet::{Limits, PackError};
///
/// let message = capvet::unpack_words(&[0x10, 1, 0, 0], 1024)?;
/// assert_eq!(message, [0, 0, 0, 0, 1, 0, 0, 0, 0, 0, 0, 0, 0, 0, 0, 0]);
/// assert!(capvet::vet(&message, Limits::DEFAULT).is_ok());
///
/// let large = capvet::unpack_words(&[0, 255], 1024);
/// assert!(matches!(large, Err(PackError::TooLarge { size: 2048, .. })));
/// # Ok::<(), PackError>(())
/// ```
#[cfg(feature = "alloc")]
pub fn unpack_words(packed: &[u8], max_size: usize) -> Result<Vec<u8>, PackError> {
    in_a_buffer(|out| unpack_words_into(packed, out), max_size)
}

/// Unpacks all of `packed` to the start of `out` (encoding: Packing). Returns the length of the words in bytes. They need
/// not be a message. The bytes of `out` after them are unchanged. It allocates nothing.
///
/// # Errors
///
/// The first of these that applies. `out` is then unchanged.
///
/// - [`PackError::TooLarge`]: there are more than 2^53 packed bytes.
/// - [`PackError::Truncated`]: they end inside a group.
/// - [`PackError::BufferTooSmall`]: `out` is shorter than the words.
///
/// # Examples
///
/// ```
/// let mut out = [7; 24];
/// assert_eq!(capvet::unpack_words_into(&[0x10, 1, 0, 0], &mut out), Ok(16));
/// assert_eq!(out[..16], [0, 0, 0, 0, 1, 0, 0, 0, 0, 0, 0, 0, 0, 0, 0, 0]);
/// assert_eq!(out[16..], [7; 8]);
/// ```
pub fn unpack_words_into(packed: &[u8], out: &mut [u8]) -> Result<usize, PackError> {
    let (answer, required) = calls::unpack(packed, out);
    match answer {
        Answer::OK => Ok(required),
        _ => Err(PackError::of(answer, required)),
    }
}

#[cfg(all(test, feature = "std"))]
mod tests {
    use super::*;

    const CONTACTS: &[u8] = include_bytes!("../../../examples/contacts.bin");
    const PACKED: &[u8] = include_bytes!("../../../examples/contacts.packed");

    #[test]
    fn the_sample_is_packed_and_unpacked() {
        assert_eq!(pack_words(CONTACTS).as_deref(), Ok(PACKED));
        assert_eq!(
            unpack_words(PACKED, CONTACTS.len()).as_deref(),
            Ok(CONTACTS)
        );
        assert_eq!(pack_words(&[]), Ok(Vec::new()));
        assert_eq!(unpack_words(&[], 0), Ok(Vec::new()));
        let size = CONTACTS.len() as u64;
        let small = unpack_words(PACKED, CONTACTS.len() - 1);
        assert_eq!(small, Err(PackError::TooLarge { size }));
    }

    #[test]
    fn messages_are_packed_by_parts() {
        const MANY: &[u8] = include_bytes!("../../../examples/contacts-many-segments.bin");
        for message in [CONTACTS, MANY] {
            let segments = crate::segments(message).expect("it has a frame");
            let mut table = message.len();
            let mut parts = Vec::new();
            for segment in segments {
                table -= segment.len();
                parts.extend(pack_words(segment).expect("these are whole words"));
            }
            parts.splice(
                ..0,
                pack_words(&message[..table]).expect("these are whole words"),
            );
            let packed = pack_message(message);
            assert_eq!(packed.as_deref(), Ok(&parts[..]));
            assert_eq!(unpack_words(&parts, message.len()).as_deref(), Ok(message));

            let more = [message, &[7]].concat();
            let error = pack_message(&more).expect_err("a byte follows");
            assert_eq!(error.to_string(), "Trailing 1");
            let mut out = vec![0xee; parts.len() - 1];
            let required = parts.len();
            let small = pack_message_into(message, &mut out);
            assert_eq!(small, Err(PackError::BufferTooSmall { required }));
            assert!(out.iter().all(|byte| *byte == 0xee));
        }
    }

    #[test]
    fn each_prefix_of_the_words_is_packed_or_truncated() {
        for length in 0..=CONTACTS.len() {
            let words = &CONTACTS[..length];
            let packed = pack_words(words);
            if length % 8 != 0 {
                assert_eq!(packed, Err(PackError::Truncated));
            } else {
                let packed = packed.expect("these are whole words");
                assert_eq!(unpack_words(&packed, length).as_deref(), Ok(words));
            }
        }
    }

    #[test]
    fn each_prefix_of_packed_bytes_is_a_prefix_of_the_words_or_truncated() {
        let (mut whole, mut truncated) = (0, 0);
        for length in 0..=PACKED.len() {
            match unpack_words(&PACKED[..length], CONTACTS.len()) {
                Ok(words) => {
                    assert_eq!(words, CONTACTS[..words.len()]);
                    whole += 1;
                }
                error => {
                    assert_eq!(error, Err(PackError::Truncated));
                    // (whatever the maximum size)
                    assert_eq!(unpack_words(&PACKED[..length], 0), error);
                    truncated += 1;
                }
            }
        }
        assert!(whole > 100 && truncated > 100, "{whole}, {truncated}");
    }

    #[test]
    fn a_buffer_that_is_too_small_is_unchanged() {
        for size in 0..PACKED.len() {
            let mut out = vec![0xee; size];
            let required = PACKED.len();
            let small = pack_words_into(CONTACTS, &mut out);
            assert_eq!(small, Err(PackError::BufferTooSmall { required }));
            assert!(out.iter().all(|byte| *byte == 0xee), "size {size}");
        }
        for size in 0..CONTACTS.len() {
            let mut out = vec![0xee; size];
            let required = CONTACTS.len();
            let small = unpack_words_into(PACKED, &mut out);
            assert_eq!(small, Err(PackError::BufferTooSmall { required }));
            assert!(out.iter().all(|byte| *byte == 0xee), "size {size}");
        }
    }

    #[test]
    fn the_bytes_after_the_result_are_unchanged() {
        let mut out = vec![0xee; CONTACTS.len() + 9];
        assert_eq!(pack_words_into(CONTACTS, &mut out), Ok(PACKED.len()));
        let (packed, rest) = out.split_at(PACKED.len());
        assert_eq!(packed, PACKED);
        assert!(rest.iter().all(|byte| *byte == 0xee));
        out.fill(0xee);
        assert_eq!(unpack_words_into(PACKED, &mut out), Ok(CONTACTS.len()));
        assert_eq!(out, [CONTACTS, &[0xee; 9]].concat());
    }

    #[test]
    fn errors_have_the_names_of_answers() {
        for (answer, text) in [
            (Answer::TRUNCATED, "Truncated"),
            (
                Answer::BUFFER_TOO_SMALL,
                "BufferTooSmall, 77 bytes are required",
            ),
            (Answer::TOO_LARGE, "TooLarge, 0 bytes"),
        ] {
            assert_eq!(PackError::of(answer, 77).to_string(), text);
        }
    }
}
