//! The canonical form of a message, to be hashed or signed.

use crate::calls::{self, Answer, Form};
use crate::message::report_of;
use crate::{Limits, Message, Position, VetError};
#[cfg(feature = "alloc")]
use alloc::{vec, vec::Vec};
use core::fmt;

/// The message has a capability, so there is no canonical form.
#[derive(Clone, Copy, Debug, PartialEq, Eq, Hash)]
#[non_exhaustive]
pub struct HasCapability {
    /// The place of the first capability in preorder.
    pub position: Position,
}

impl fmt::Display for HasCapability {
    fn fmt(&self, f: &mut fmt::Formatter<'_>) -> fmt::Result {
        write!(f, "HasCapability at {}", self.position)
    }
}

/// The error of [`Message::canonical_into`].
#[derive(Clone, Copy, Debug, PartialEq, Eq, Hash)]
#[non_exhaustive]
pub enum CanonicalError {
    /// The message has a capability, so there is no canonical form.
    HasCapability(
        /// The place.
        HasCapability,
    ),
    /// The buffer is smaller than the canonical form.
    #[non_exhaustive]
    BufferTooSmall {
        /// The length of the canonical form in bytes.
        required: usize,
    },
}

/// As in the lines of the program, where it has one.
impl fmt::Display for CanonicalError {
    fn fmt(&self, f: &mut fmt::Formatter<'_>) -> fmt::Result {
        match self {
            Self::HasCapability(error) => error.fmt(f),
            Self::BufferTooSmall { required } => {
                write!(f, "BufferTooSmall, {required} bytes are required")
            }
        }
    }
}

impl Message<'_> {
    /// Returns the canonical form of the message: the bytes of its words, without a table (encoding: Canonicalization). Equal
    /// content gives equal bytes, so you can hash or sign them.
    ///
    /// It allocates as many bytes as the frame has. If the form is longer, it then allocates as many as the form has. A form
    /// is longer than the frame only if the message uses words twice.
    ///
    /// # Errors
    ///
    /// - [`HasCapability`]: the message has a capability.
    ///
    /// # Examples
    ///
    /// ```
    /// use capvet::Limits;
    ///
    /// let null = [0, 0, 0, 0, 1, 0, 0, 0, 0, 0, 0, 0, 0, 0, 0, 0];
    /// assert_eq!(capvet::vet(&null, Limits::DEFAULT)?.canonical(), Ok(vec![0; 8]));
    /// // The root is a capability.
    /// let capability = [0, 0, 0, 0, 1, 0, 0, 0, 3, 0, 0, 0, 0, 0, 0, 0];
    /// let none = capvet::vet(&capability, Limits::DEFAULT)?.canonical().unwrap_err();
    /// assert_eq!(none.to_string(), "HasCapability at 0:0");
    /// # Ok::<(), capvet::VetError>(())
    /// ```
    #[cfg(feature = "alloc")]
    pub fn canonical(&self) -> Result<Vec<u8>, HasCapability> {
        let mut form = vec![0; self.bytes().len()];
        loop {
            match self.canonical_into(&mut form) {
                Ok(length) => {
                    form.truncate(length);
                    return Ok(form);
                }
                Err(CanonicalError::BufferTooSmall { required }) => form = vec![0; required],
                Err(CanonicalError::HasCapability(error)) => return Err(error),
            }
        }
    }

    /// Writes the canonical form of the message to the start of `out`, and returns its length in bytes. The bytes of `out`
    /// after them are unchanged. It allocates nothing. `8 * (charge + 1)` bytes are always enough.
    ///
    /// # Errors
    ///
    /// The first of these that applies. `out` is then unchanged.
    ///
    /// - [`CanonicalError::HasCapability`]: the message has a capability.
    /// - [`CanonicalError::BufferTooSmall`]: `out` is shorter than the canonical form.
    ///
    /// # Examples
    ///
    /// ```
    /// use capvet::{CanonicalError, Limits};
    ///
    /// // A struct of two data words, the second of which is zero and so is left out.
    /// let mut bytes = [0; 32];
    /// (bytes[4], bytes[12], bytes[16]) = (3, 2, 7);
    /// let message = capvet::vet(&bytes, Limits::DEFAULT).unwrap();
    /// let mut copy = [0xee; 20];
    /// let none = message.canonical_into(&mut copy[..15]);
    /// assert!(matches!(none, Err(CanonicalError::BufferTooSmall { required: 16, .. })));
    /// assert_eq!(message.canonical_into(&mut copy), Ok(16));
    /// assert_eq!(copy[..16], [0, 0, 0, 0, 1, 0, 0, 0, 7, 0, 0, 0, 0, 0, 0, 0]);
    /// assert_eq!(copy[16..], [0xee; 4]);
    /// ```
    pub fn canonical_into(&self, out: &mut [u8]) -> Result<usize, CanonicalError> {
        if let Some(position) = self.report().first_capability {
            return Err(CanonicalError::HasCapability(HasCapability { position }));
        }
        match calls::canonical(self.bytes(), &Limits::LARGEST, out) {
            (Answer::OK, length) => Ok(length),
            (_, required) => Err(CanonicalError::BufferTooSmall { required }),
        }
    }

    /// Whether the message is canonical: it has one segment, and this segment is its canonical form (encoding:
    /// Canonicalization). A message with a capability is not.
    ///
    /// # Examples
    ///
    /// ```
    /// use capvet::Limits;
    ///
    /// // A struct of one data word, which is zero and so has to be left out.
    /// let long = [0, 0, 0, 0, 2, 0, 0, 0, 0, 0, 0, 0, 1, 0, 0, 0, 0, 0, 0, 0, 0, 0, 0, 0];
    /// assert!(!capvet::vet(&long, Limits::DEFAULT)?.is_canonical());
    /// let short = [0, 0, 0, 0, 1, 0, 0, 0, 0xfc, 0xff, 0xff, 0xff, 0, 0, 0, 0];
    /// assert!(capvet::vet(&short, Limits::DEFAULT)?.is_canonical());
    /// # Ok::<(), capvet::VetError>(())
    /// ```
    #[must_use]
    pub fn is_canonical(&self) -> bool {
        calls::is_canonical(self.bytes(), &Limits::LARGEST, Form::Whole).0 == Answer::OK
    }
}

/// Returns whether words without a table are the canonical form of a message: what a receiver asks of words that were signed.
///
/// It is true of each result of [`Message::canonical`], with the limits that the message was vetted with. Amplified words are
/// accepted, since copies of shared objects may make them so. The limit of the charge bounds the work, and the words may be one
/// more than that. It allocates nothing.
///
/// # Errors
///
/// - [`VetError`]: the words aren't accepted.
///
/// # Examples
///
/// ```
/// use capvet::Limits;
///
/// assert!(capvet::is_canonical_words(&[0; 8], Limits::DEFAULT)?);
/// assert!(!capvet::is_canonical_words(&[0; 16], Limits::DEFAULT)?);
/// assert!(capvet::is_canonical_words(&[0; 7], Limits::DEFAULT).is_err());
/// # Ok::<(), capvet::VetError>(())
/// ```
pub fn is_canonical_words(words: &[u8], limits: Limits) -> Result<bool, VetError> {
    let limits = limits.of_copies();
    let (answer, raw) = calls::is_canonical(words, &limits, Form::Words);
    match answer {
        Answer::NOT_CANONICAL => Ok(false),
        _ => report_of(answer, &raw).map(|_| true),
    }
}
