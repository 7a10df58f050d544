//! Why a message isn't canonical.

use crate::calls::{self, Answer, RawReport};
use crate::refusal::{reasons, UnknownReason};
#[cfg(feature = "alloc")]
use crate::Path;
use crate::{Limits, Message, Pointer, Position};
use core::fmt;
use core::str::FromStr;

reasons! {
    /// Why a message isn't as its canonical form has it. The variants are in the order in which they are tried.
    pub enum DifferenceReason {
        /// The message has more than one segment.
        Segments = 1,
        /// The pointer is far.
        Far = 2,
        /// The pointer is a capability, so there is no canonical form.
        Capability = 3,
        /// The pointer leads to a struct without words, and its offset isn't -1.
        EmptyStruct = 4,
        /// The object doesn't begin where the canonical form has the next one: it is out of preorder, after a gap, or used
        /// twice.
        Place = 5,
        /// Bits are set after the last value of a list.
        Bits = 6,
        /// A list of structs has no elements, and sizes in its tag.
        EmptyList = 7,
        /// A list of structs has words after its last element.
        Surplus = 8,
        /// The last data word of a struct is zero, or that of all structs of a list.
        DataZero = 9,
        /// The last pointer of a struct is null, or that of all structs of a list.
        PointerNull = 10,
        /// Words of the segment come after the last object.
        Trailing = 11,
    }
}

/// Where a message differs from its canonical form first, and why.
#[derive(Clone, Copy, Debug, PartialEq, Eq, Hash)]
#[non_exhaustive]
pub struct Difference {
    /// The first reason that applies at the pointer.
    pub reason: DifferenceReason,
    /// The place of the first pointer in preorder that isn't as the canonical form has it, with its object. For
    /// [`DifferenceReason::Trailing`] it is the first word after all objects, and for [`DifferenceReason::Segments`] word 0
    /// of segment 0.
    pub position: Position,
    /// The number of that pointer in preorder, from 1. For [`DifferenceReason::Trailing`] it is the number of pointers of the
    /// message, and for [`DifferenceReason::Segments`] it is 0.
    pub pointers: u64,
}

impl Difference {
    // That of a report for `NOT_CANONICAL`.
    fn of(raw: &RawReport) -> Self {
        let mut all = DifferenceReason::ALL.iter().copied();
        let number = raw.detail;
        Self {
            reason: all
                .find(|it| u64::from(it.code()) == number)
                .unwrap_or_else(|| panic!("{number} is no reason")),
            position: Position::of(raw),
            pointers: raw.pointers,
        }
    }

    /// The pointer that it names. It is `None` if the difference is at no pointer: for [`DifferenceReason::Segments`] and
    /// [`DifferenceReason::Trailing`].
    #[must_use]
    pub const fn pointer(&self) -> Option<Pointer> {
        match self.reason {
            DifferenceReason::Segments | DifferenceReason::Trailing => None,
            _ => Some(Pointer {
                position: self.position,
                number: self.pointers,
            }),
        }
    }

    /// The path to this pointer, in the message of which it is the first difference. It is found by one more walk up to the
    /// pointer. `None` if there is no pointer, and maybe for another message.
    ///
    /// # Examples
    ///
    /// ```
    /// use capvet::Limits;
    ///
    /// // A struct of two pointers, which lead to one struct.
    /// let shared = [
    ///     0, 0, 0, 0, 4, 0, 0, 0, 0, 0, 0, 0, 0, 0, 2, 0, 4, 0, 0, 0, 1, 0, 0, 0, 0, 0, 0, 0, 1, 0, 0, 0, 7, 0, 0, 0, 0, 0, 0, 0,
    /// ];
    /// let message = capvet::vet(&shared, Limits::DEFAULT)?;
    /// let difference = message.first_difference().unwrap();
    /// assert_eq!(difference.to_string(), "not canonical: Place at 0:2");
    /// assert_eq!(difference.path(&message).unwrap().to_string(), "/p1");
    /// # Ok::<(), capvet::VetError>(())
    /// ```
    #[cfg(feature = "alloc")]
    #[must_use]
    pub fn path(&self, message: &Message<'_>) -> Option<Path> {
        crate::path::path_of(message.bytes(), Limits::LARGEST, self.pointer()?)
    }
}

/// As in the lines of the program.
impl fmt::Display for Difference {
    fn fmt(&self, f: &mut fmt::Formatter<'_>) -> fmt::Result {
        let Self {
            reason, position, ..
        } = self;
        write!(f, "not canonical: {reason} at {position}")
    }
}

impl Message<'_> {
    /// Why the message isn't canonical: the first pointer in preorder at which it isn't as its canonical form has it, and the
    /// reason (encoding: Canonicalization). It is `None` exactly if [`is_canonical`](Message::is_canonical) is true. It allocates
    /// nothing.
    ///
    /// # Examples
    ///
    /// ```
    /// use capvet::{DifferenceReason, Limits};
    ///
    /// // A struct of one data word, which is zero and so has to be left out.
    /// let long = [0, 0, 0, 0, 2, 0, 0, 0, 0, 0, 0, 0, 1, 0, 0, 0, 0, 0, 0, 0, 0, 0, 0, 0];
    /// let difference = capvet::vet(&long, Limits::DEFAULT)?.first_difference().unwrap();
    /// assert_eq!((difference.reason, difference.pointers), (DifferenceReason::DataZero, 1));
    /// let short = [0, 0, 0, 0, 1, 0, 0, 0, 0xfc, 0xff, 0xff, 0xff, 0, 0, 0, 0];
    /// assert_eq!(capvet::vet(&short, Limits::DEFAULT)?.first_difference(), None);
    /// # Ok::<(), capvet::VetError>(())
    /// ```
    #[must_use]
    pub fn first_difference(&self) -> Option<Difference> {
        match calls::first_difference(self.bytes(), &Limits::LARGEST) {
            (Answer::NOT_CANONICAL, raw) => Some(Difference::of(&raw)),
            _ => None,
        }
    }
}

#[cfg(all(test, feature = "std"))]
mod tests {
    use super::*;
    use crate::vet;
    use DifferenceReason as R;

    // The message of these segments, of which there are one or two.
    fn framed(segments: &[&[u64]]) -> Vec<u8> {
        let mut table = vec![segments.len() as u32 - 1];
        table.extend(segments.iter().map(|it| it.len() as u32));
        if table.len() % 2 == 1 {
            table.push(0);
        }
        let table = table.iter().flat_map(|number| number.to_le_bytes());
        let words = segments.iter().flat_map(|it| it.iter());
        table
            .chain(words.flat_map(|word| word.to_le_bytes()))
            .collect()
    }

    // A reason, the segments of a message, the word and the number of the pointer, and its path.
    type Row = (R, &'static [&'static [u64]], u32, u64, Option<&'static str>);

    const ROWS: [Row; 11] = [
        (R::Segments, &[&[0], &[0]], 0, 0, None),
        (R::Far, &[&[2 | 1 << 3, 1 << 32, 7]], 0, 1, Some("/")),
        (
            R::Capability,
            &[&[1 << 32 | 1 << 48, 7, 3 | 7 << 32]],
            2,
            2,
            Some("/p0"),
        ),
        (R::EmptyStruct, &[&[1 << 2, 0]], 0, 1, Some("/")),
        (
            R::Place,
            &[&[2 << 48, 1 << 2 | 1 << 32, 1 << 32, 7]],
            2,
            3,
            Some("/p1"),
        ),
        (R::Bits, &[&[1 | 1 << 32 | 1 << 35, 3]], 0, 1, Some("/")),
        (R::EmptyList, &[&[1 | 7 << 32, 1 << 32]], 0, 1, Some("/")),
        (
            R::Surplus,
            &[&[1 | 7 << 32 | 2 << 35, 1 << 2 | 1 << 32, 5, 0]],
            0,
            1,
            Some("/"),
        ),
        (R::DataZero, &[&[2 << 32, 7, 0]], 0, 1, Some("/")),
        (
            R::PointerNull,
            &[&[1 << 32 | 1 << 48, 7, 0]],
            0,
            1,
            Some("/"),
        ),
        (R::Trailing, &[&[0, 0]], 1, 1, None),
    ];

    #[test]
    fn each_reason_has_its_place_and_its_path() {
        for (reason, segments, word, pointers, path) in ROWS {
            let bytes = framed(segments);
            let message = vet(&bytes, Limits::DEFAULT).expect("it is accepted");
            let position = Position { segment: 0, word };
            let found = message.first_difference().expect("it isn't canonical");
            assert!(!message.is_canonical());
            assert_eq!(
                (found.reason, found.position, found.pointers),
                (reason, position, pointers)
            );
            assert_eq!(
                found.pointer(),
                path.map(|_| Pointer {
                    position,
                    number: pointers
                })
            );
            let found_path = found.path(&message).map(|it| it.to_string());
            assert_eq!(found_path, path.map(String::from));
            assert_eq!(
                found.to_string(),
                format!("not canonical: {reason} at {position}")
            );
        }
    }

    #[test]
    fn reasons_are_all_there_and_have_names() {
        assert_eq!(R::ALL, ROWS.map(|row| row.0));
        for (number, reason) in (1..).zip(R::ALL) {
            assert_eq!(reason.code(), number);
            assert_eq!(reason.name().parse(), Ok(*reason));
        }
        assert_eq!("Overlap".parse::<R>(), Err(UnknownReason));
    }

    #[test]
    fn a_canonical_message_has_no_difference() {
        let bytes = framed(&[&[1 << 32, 7]]);
        let message = vet(&bytes, Limits::DEFAULT).expect("it is accepted");
        assert!(message.is_canonical());
        assert_eq!(message.first_difference(), None);
    }
}
