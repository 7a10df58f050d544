//! Steps and paths.

#[cfg(feature = "alloc")]
use crate::Pointer;
use crate::{calls, Limits, Refusal};
#[cfg(feature = "alloc")]
use alloc::vec::Vec;
#[cfg(feature = "alloc")]
use core::fmt;
#[cfg(feature = "alloc")]
use core::str::FromStr;

/// One step of a path, in numbers. It has no further variants in any later version.
#[derive(Clone, Copy, Debug, PartialEq, Eq, PartialOrd, Ord, Hash)]
pub enum Step {
    /// From a struct to the pointer of this number, counted from 0. In the text of a path it is `/p`.
    Pointer(u16),
    /// From a list of pointers or structs to the element of this number, counted from 0. In the text of a path it is `/i`.
    Element(u32),
}

/// The steps from the root to a node. Its text is `/` for the root, or such as `/p0/i7/p2`.
///
/// # Examples
///
/// ```
/// use capvet::{Path, Step};
///
/// let path: Path = "/p0/i7".parse()?;
/// assert_eq!(path.as_ref(), [Step::Pointer(0), Step::Element(7)]);
/// assert_eq!(path.to_string(), "/p0/i7");
/// assert_eq!("/p0/x".parse::<Path>().unwrap_err().position, 4);
/// # Ok::<(), capvet::PathError>(())
/// ```
#[cfg(feature = "alloc")]
#[derive(Clone, Debug, Default, PartialEq, Eq, PartialOrd, Ord, Hash)]
pub struct Path(Vec<Step>);

#[cfg(feature = "alloc")]
impl AsRef<[Step]> for Path {
    fn as_ref(&self) -> &[Step] {
        &self.0
    }
}

#[cfg(feature = "alloc")]
impl From<Vec<Step>> for Path {
    fn from(steps: Vec<Step>) -> Self {
        Self(steps)
    }
}

#[cfg(feature = "alloc")]
impl fmt::Display for Path {
    fn fmt(&self, f: &mut fmt::Formatter<'_>) -> fmt::Result {
        if self.0.is_empty() {
            return f.write_str("/");
        }
        self.0.iter().try_for_each(|step| match step {
            Step::Pointer(number) => write!(f, "/p{number}"),
            Step::Element(number) => write!(f, "/i{number}"),
        })
    }
}

/// The error of a text that is no [`Path`].
#[cfg(feature = "alloc")]
#[derive(Clone, Copy, Debug, PartialEq, Eq, Hash)]
#[non_exhaustive]
pub struct PathError {
    /// The first byte at which it is no path, counted from 0, or its length if it ends too early.
    pub position: usize,
}

#[cfg(feature = "alloc")]
impl fmt::Display for PathError {
    fn fmt(&self, f: &mut fmt::Formatter<'_>) -> fmt::Result {
        write!(f, "BadPath at byte {}", self.position)
    }
}

#[cfg(feature = "alloc")]
impl FromStr for Path {
    type Err = PathError;

    fn from_str(text: &str) -> Result<Self, PathError> {
        if let Some(position) = calls::bad_path(text) {
            return Err(PathError { position });
        }
        // (only the text of the root has no step)
        let steps = text.split('/').filter(|step| !step.is_empty());
        let steps = steps.map(|step| {
            let (kind, number) = step.split_at(1);
            match kind {
                "p" => number.parse().map(Step::Pointer),
                _ => number.parse().map(Step::Element),
            }
        });
        let steps = steps.collect::<Result<_, _>>();
        steps.map(Self).map_err(|_| PathError { position: 0 })
    }
}

impl Refusal {
    /// The path to the pointer that it names, in the message that `bytes` begin with: which field is refused. It is found by one
    /// more walk up to this pointer.
    ///
    /// It is `None` if the refusal names no pointer, and may be `None` or another path if the bytes or the limits aren't those
    /// of the refusal, or for a refusal of [`peek`](crate::peek).
    ///
    /// # Examples
    ///
    /// ```
    /// use capvet::{Limits, VetError};
    ///
    /// // A struct of two pointers. The first is null, and the second leads past the end of the segment.
    /// let message = [
    ///     0, 0, 0, 0, 3, 0, 0, 0, 0, 0, 0, 0, 0, 0, 2, 0, 0, 0, 0, 0, 0, 0, 0, 0, 0, 0, 0, 0, 1, 0, 0, 0,
    /// ];
    /// match capvet::vet(&message, Limits::DEFAULT) {
    ///     Err(VetError::Refused(refusal)) => {
    ///         assert_eq!(refusal.path(&message, Limits::DEFAULT).unwrap().to_string(), "/p1");
    ///     }
    ///     other => panic!("{other:?}"),
    /// }
    /// ```
    #[cfg(feature = "alloc")]
    #[must_use]
    pub fn path(&self, bytes: &[u8], limits: Limits) -> Option<Path> {
        path_of(bytes, limits, self.pointer?)
    }

    /// Does what `path` does, without allocating. It writes the steps to the start of `steps`, and returns these.
    #[must_use]
    pub fn path_into<'s>(
        &self,
        bytes: &[u8],
        limits: Limits,
        steps: &'s mut [Step; Limits::MAX_DEPTH as usize],
    ) -> Option<&'s [Step]> {
        let count = calls::pointer_path(bytes, &limits, self.pointer?.number, steps)?;
        Some(&steps[..count])
    }

    /// The path to the first pointer that uses a word which this one uses too: the other pointer of an overlap. It is found by
    /// three more walks up to the pointer.
    ///
    /// `None` if no pointer before this one uses such a word, or if [`path`](Refusal::path) is `None`.
    ///
    /// # Examples
    ///
    /// ```
    /// use capvet::{Limits, VetError};
    ///
    /// // A struct of two pointers, which lead to one struct.
    /// let message = [
    ///     0, 0, 0, 0, 4, 0, 0, 0, 0, 0, 0, 0, 0, 0, 2, 0, 4, 0, 0, 0, 1, 0, 0, 0, 0, 0, 0, 0, 1, 0, 0, 0, 7, 0, 0, 0, 0, 0, 0, 0,
    /// ];
    /// let limits = Limits::DEFAULT.with_exclusive(true);
    /// match capvet::vet(&message, limits) {
    ///     Err(VetError::Refused(refusal)) => {
    ///         let paths = [refusal.path(&message, limits), refusal.earlier_path(&message, limits)];
    ///         assert_eq!(paths.map(|path| path.unwrap().to_string()), ["/p1", "/p0"]);
    ///     }
    ///     other => panic!("{other:?}"),
    /// }
    /// ```
    #[cfg(feature = "alloc")]
    #[must_use]
    pub fn earlier_path(&self, bytes: &[u8], limits: Limits) -> Option<Path> {
        let earlier = calls::earlier_pointer(bytes, &limits, self.pointer?.number)?;
        path_of(bytes, limits, earlier)
    }
}

// The path to a pointer.
#[cfg(feature = "alloc")]
pub(crate) fn path_of(bytes: &[u8], limits: Limits, pointer: Pointer) -> Option<Path> {
    let mut steps = [Step::Pointer(0); calls::MOST_LEVELS];
    let count = calls::pointer_path(bytes, &limits, pointer.number, &mut steps)?;
    Some(Path(steps[..count].to_vec()))
}

#[cfg(all(test, feature = "std"))]
mod tests {
    use super::*;
    use crate::{vet, VetError};
    use std::collections::BTreeSet;

    // The message of one segment of these words.
    fn framed(words: &[u64]) -> Vec<u8> {
        let head = (words.len() as u64) << 32;
        let words = std::iter::once(&head).chain(words);
        words.flat_map(|word| word.to_le_bytes()).collect()
    }

    fn refusal(bytes: &[u8], limits: Limits) -> Refusal {
        match vet(bytes, limits) {
            Err(VetError::Refused(refusal)) => refusal,
            other => panic!("{other:?}"),
        }
    }

    fn path(words: &[u64], limits: Limits) -> Option<Path> {
        let bytes = framed(words);
        refusal(&bytes, limits).path(&bytes, limits)
    }

    #[test]
    fn the_root_has_no_steps() {
        let root = path(&[1 << 34], Limits::DEFAULT).unwrap();
        assert_eq!((root.to_string(), root.as_ref()), ("/".to_owned(), &[][..]));
    }

    // The second pointer of the second of two structs.
    #[test]
    fn elements_and_pointers_are_steps() {
        let words = [
            1 | (7 << 32) | (4 << 35),
            (2 << 2) | (2 << 48),
            0,
            0,
            0,
            1 << 34,
        ];
        let found = path(&words, Limits::DEFAULT).unwrap();
        assert_eq!(found.to_string(), "/i1/p1");
        assert_eq!(found.as_ref(), [Step::Element(1), Step::Pointer(1)]);
        assert_eq!(format!("{found:?}"), "Path([Element(1), Pointer(1)])");
    }

    #[test]
    fn the_longest_path() {
        let limits = Limits::DEFAULT.with_depth(256);
        let found = path(&[0xffff_fffc | (1 << 48)], limits).unwrap();
        assert_eq!(found.as_ref(), [Step::Pointer(0); 256]);
        assert_eq!(found.to_string(), "/p0".repeat(256));
    }

    // Of a pointer that isn't strict, and with bytes after the message.
    #[test]
    fn with_the_limits_of_the_refusal() {
        let words = [1 << 48, 2 | (2 << 3), 0];
        assert_eq!(path(&words, Limits::DEFAULT).unwrap().to_string(), "/p0");
        let bytes = framed(&words);
        let refusal = refusal(&bytes, Limits::DEFAULT);
        let more = [&bytes[..], &[7]].concat();
        let found = refusal.path(&more, Limits::DEFAULT).unwrap();
        let mut steps = [Step::Element(0); 256];
        let into = refusal.path_into(&more, Limits::DEFAULT, &mut steps);
        assert_eq!(into, Some(found.as_ref()));
        assert_eq!(refusal.path_into(&[], Limits::DEFAULT, &mut steps), None);
    }

    #[test]
    fn a_text_is_a_path_or_not() {
        for text in ["/", "/p0", "/i4294967295/p65535", "/p0/i1/p2"] {
            assert_eq!(text.parse::<Path>().unwrap().to_string(), text);
        }
        for (text, position) in [
            ("", 0),
            ("p0", 0),
            ("/p0/", 4),
            ("/p01", 3),
            ("/p0/i1/p0x", 9),
            ("/p0//p1", 4),
            ("/q0", 1),
        ] {
            assert_eq!(text.parse::<Path>(), Err(PathError { position }), "{text}");
        }
        for text in ["/p65536", "/i4294967296"] {
            text.parse::<Path>().unwrap_err();
        }
        let text = PathError { position: 4 }.to_string();
        assert_eq!(text, "BadPath at byte 4");
    }

    #[test]
    fn paths_are_ordered_by_their_steps() {
        let paths = ["/p1", "/", "/p0/i10", "/p0/i9", "/p0"];
        let paths: BTreeSet<Path> = paths.iter().map(|it| it.parse().unwrap()).collect();
        let texts: Vec<_> = paths.iter().map(Path::to_string).collect();
        assert_eq!(texts, ["/", "/p0", "/p0/i9", "/p0/i10", "/p1"]);
        assert_eq!(
            Path::from(vec![Step::Pointer(1)]),
            *paths.iter().last().unwrap()
        );
    }

    // Two pointers to one struct.
    #[test]
    fn the_path_of_an_overlap() {
        let bytes = framed(&[2 << 48, (1 << 2) | (1 << 32), 1 << 32, 7]);
        match vet(&bytes, Limits::DEFAULT.with_exclusive(true)) {
            Err(VetError::Refused(overlap)) => {
                let found = overlap.path(&bytes, Limits::DEFAULT).unwrap();
                assert_eq!(found.to_string(), "/p1");
                let earlier = overlap.earlier_path(&bytes, Limits::DEFAULT).unwrap();
                assert_eq!(earlier.to_string(), "/p0");
                assert_eq!(overlap.earlier_path(&[], Limits::DEFAULT), None);
            }
            other => panic!("{other:?}"),
        }
    }

    // A pointer to the root word, which no pointer uses.
    #[test]
    fn no_pointer_uses_the_root_word_before() {
        let bytes = framed(&[1 << 48, 0xFFFF_FFF8 | (1 << 32)]);
        match vet(&bytes, Limits::DEFAULT.with_exclusive(true)) {
            Err(VetError::Refused(overlap)) => {
                let found = overlap.path(&bytes, Limits::DEFAULT).unwrap();
                assert_eq!(found.to_string(), "/p0");
                assert_eq!(overlap.earlier_path(&bytes, Limits::DEFAULT), None);
            }
            other => panic!("{other:?}"),
        }
    }

    #[test]
    fn nothing_is_at_a_path_of_no_root() {
        let bytes = framed(&[]);
        let refused = refusal(&bytes, Limits::DEFAULT);
        assert_eq!(refused.path(&bytes, Limits::DEFAULT), None);
        assert_eq!(refused.path(&[], Limits::DEFAULT), None);
    }
}
