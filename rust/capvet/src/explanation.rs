//! The explanation of a refusal.

use crate::calls::{self, EXPLANATION_BOUND, OVERLAP_BOUND};
use crate::{Limits, Pointer, Reason, Refusal};
use core::fmt;

/// Why a message is refused, as lines of text: it is written by `{}` or `to_string`. See [`Refusal::explain`].
#[derive(Clone, Copy)]
#[must_use = "it is written by `{}`"]
pub struct Explanation<'b> {
    pub(crate) bytes: &'b [u8],
    pub(crate) limits: Limits,
    /// The pointer that overlaps, if the message is refused for that.
    pub(crate) overlap: Option<Pointer>,
}

impl Explanation<'_> {
    // Writes the lines on an overlap. (the call for other refusals looks for none)
    fn write_overlap(&self, f: &mut fmt::Formatter<'_>, pointer: Pointer) -> fmt::Result {
        let mut text = [0; OVERLAP_BOUND];
        let length = calls::explain_overlap(self.bytes, &self.limits, pointer, &mut text);
        write_ascii(f, &text[..length])
    }

    // Writes the lines on another refusal.
    fn write_refusal(&self, f: &mut fmt::Formatter<'_>) -> fmt::Result {
        let mut text = [0; EXPLANATION_BOUND];
        let length = calls::explain(self.bytes, &self.limits, &mut text);
        write_ascii(f, &text[..length])
    }
}

// Writes lines of the library, which writes ASCII alone.
fn write_ascii(f: &mut fmt::Formatter<'_>, text: &[u8]) -> fmt::Result {
    f.write_str(core::str::from_utf8(text).unwrap_or_default())
}

/// The lines. Each begins with two blanks and ends with a line feed. Writing takes 7 KiB of stack, and 30 KiB for an overlap.
impl fmt::Display for Explanation<'_> {
    fn fmt(&self, f: &mut fmt::Formatter<'_>) -> fmt::Result {
        match self.overlap {
            Some(pointer) => self.write_overlap(f, pointer),
            None => self.write_refusal(f),
        }
    }
}

impl fmt::Debug for Explanation<'_> {
    fn fmt(&self, f: &mut fmt::Formatter<'_>) -> fmt::Result {
        write!(f, "{self}")
    }
}

impl Refusal {
    /// Why the message that `bytes` are is refused, as lines for a log.
    ///
    /// The program's command `explain` writes them after the line of the verdict, with the byte in the input too. They have
    /// the path to the pointer, its place in bytes, the pointer word with its fields, and where it leads. Then come what is
    /// exceeded, and the reason as a sentence. The message is vetted again as they are written, so give the bytes and the limits of the
    /// refusal. Bytes may follow the message. It allocates nothing.
    ///
    /// Of an overlap the last line has the path to the earlier pointer and its place, if there is one.
    ///
    /// # Examples
    ///
    /// ```
    /// use capvet::{Limits, VetError};
    ///
    /// // A struct of two pointers. The first is null, and the second leads past the end of the segment.
    /// let message = [
    ///     0, 0, 0, 0, 3, 0, 0, 0, 0, 0, 0, 0, 0, 0, 2, 0, 0, 0, 0, 0, 0, 0, 0, 0, 0, 0, 0, 0, 1, 0, 0, 0,
    /// ];
    /// let lines = "  path /p1
    ///   byte 24 of the message
    ///   pointer 0000000001000000 struct, offset 0, data words 1, pointers 0
    ///   target 0:3 to 0:3, words 1
    ///   leads into segment 0, words 3
    ///   reason the target runs past the end of its segment
    /// ";
    /// match capvet::vet(&message, Limits::DEFAULT) {
    ///     Err(VetError::Refused(refusal)) => {
    ///         assert_eq!(refusal.explain(&message, Limits::DEFAULT).to_string(), lines);
    ///     }
    ///     other => panic!("{other:?}"),
    /// }
    /// ```
    pub fn explain<'b>(&self, bytes: &'b [u8], limits: Limits) -> Explanation<'b> {
        Explanation {
            bytes,
            limits,
            overlap: self.overlap(),
        }
    }

    // The pointer that overlaps, if the message is refused for that.
    pub(crate) fn overlap(&self) -> Option<Pointer> {
        self.pointer.filter(|_| self.reason == Reason::Overlap)
    }
}

#[cfg(all(test, feature = "std"))]
mod tests {
    use super::*;
    use crate::{vet, vet_words, VetError};

    const NULL: [u8; 16] = [0, 0, 0, 0, 1, 0, 0, 0, 0, 0, 0, 0, 0, 0, 0, 0];
    // A list of 4,098 elements without bits in one word: one more than an unamplified message has.
    const AMPLIFIED: [u8; 16] = [0, 0, 0, 0, 1, 0, 0, 0, 1, 0, 0, 0, 0x10, 0x80, 0, 0];

    // The lines of a refusal.
    fn lines(bytes: &[u8], limits: Limits) -> String {
        match vet(bytes, limits) {
            Err(VetError::Refused(refusal)) => refusal.explain(bytes, limits).to_string(),
            other => panic!("{other:?}"),
        }
    }

    #[test]
    fn a_refused_message_has_lines() {
        let expected = "  path /
  byte 8 of the message
  pointer 0100000010800000 list of empty elements, offset 0, elements 4098
  target 0:1, words 0
  leads into segment 0, words 1
  charge up to here 4098 words, limit 4097 words
  reason the charge up to this pointer and its target is more than the limit
";
        assert_eq!(lines(&AMPLIFIED, Limits::DEFAULT), expected);
        let refused = vet_words(&AMPLIFIED[8..], Limits::DEFAULT).expect_err("it is refused");
        assert_eq!(refused.explain().to_string(), expected);
        assert_eq!(format!("{:?}", refused.explain()), expected);
        // (an accepted message has none, and a broken frame has one)
        let limits = Limits::DEFAULT.with_allow_amplified(true);
        for (bytes, lines) in [
            (&AMPLIFIED[..], ""),
            (&NULL[..12], "  reason the input ends inside the message\n"),
            (&[], "  reason the input is empty\n"),
        ] {
            let overlap = None;
            let explanation = Explanation {
                bytes,
                limits,
                overlap,
            };
            assert_eq!(explanation.to_string(), lines);
        }
    }

    #[test]
    fn an_overlap_has_lines() {
        // two pointers to one struct in the second segment, and a pointer to the root word
        let shared = [
            1, 0, 0, 0, 1, 0, 0, 0, 4, 0, 0, 0, 0, 0, 0, 0, 2, 0, 0, 0, 1, 0, 0, 0, 0, 0, 0, 0, 0,
            0, 2, 0, 4, 0, 0, 0, 1, 0, 0, 0, 0, 0, 0, 0, 1, 0, 0, 0, 7, 0, 0, 0, 0, 0, 0, 0,
        ];
        let root = [
            0, 0, 0, 0, 2, 0, 0, 0, 0, 0, 0, 0, 0, 0, 1, 0, 0xf8, 0xff, 0xff, 0xff, 1, 0, 0, 0,
        ];
        let limits = Limits::DEFAULT.with_exclusive(true);
        let reason =
            "the pointer uses a word twice, the root word, or one that an earlier pointer uses; \
                      --exclusive forbids all three";
        assert_eq!(
            lines(&shared, limits),
            format!(
                "  path /p1\n  byte 40 of the message\n  pointer 0000000001000000 struct, offset 0, data words 1, pointers 0\n  \
                 target 1:3 to 1:3, words 1\n  leads into segment 1, words 4\n  reason {reason}\n  first used by /p0 at 1:1\n"
            )
        );
        assert_eq!(
            lines(&root, limits),
            format!(
                "  path /p0\n  byte 16 of the message\n  pointer f8ffffff01000000 struct, offset -2, data words 1, pointers 0\n  \
                 target 0:0 to 0:0, words 1\n  leads into segment 0, words 2\n  reason {reason}\n"
            )
        );
        // (bytes of another message have none)
        let pointer = match vet(&shared, limits) {
            Err(VetError::Refused(refusal)) => refusal,
            other => panic!("{other:?}"),
        };
        assert_eq!(pointer.explain(&root, limits).to_string(), "");
        assert_eq!(pointer.explain(&[], limits).to_string(), "");
    }

    #[test]
    fn the_longest_path_has_its_line() {
        let cycle = [0, 0, 0, 0, 1, 0, 0, 0, 0xfc, 0xff, 0xff, 0xff, 0, 0, 1, 0];
        let lines = lines(&cycle, Limits::DEFAULT.with_depth(256));
        let eight = "/p0".repeat(8);
        assert!(lines.starts_with(&format!("  path {eight}/.. 240 steps ..{eight}\n")));
    }
}
