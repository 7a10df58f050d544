//! The nodes of a message, read by their paths without a schema.

use crate::calls::{self, Answer, RawNode};
use crate::{Limits, Step, VetError};
use core::convert::TryInto;
use core::fmt;
use core::iter::FusedIterator;
use core::str;

/// The kind of a node, with its sizes.
#[derive(Clone, Copy, Debug, PartialEq, Eq, Hash)]
#[non_exhaustive]
pub enum Kind {
    /// A null pointer.
    Null,
    /// A struct.
    #[non_exhaustive]
    Struct {
        /// How many words of data it has.
        data_words: u32,
        /// How many pointers it has.
        pointers: u32,
    },
    /// A list of numbers, bits, bytes, or elements without bits. Text and Data are lists of bytes.
    #[non_exhaustive]
    Values {
        /// The code of an element, 0 to 5 for 0, 1, 8, 16, 32 and 64 bits (encoding: Lists).
        element: u32,
        /// How many elements it has.
        count: u32,
    },
    /// A list of pointers.
    #[non_exhaustive]
    Pointers {
        /// How many elements it has.
        count: u32,
    },
    /// A list of structs.
    #[non_exhaustive]
    Structs {
        /// How many elements it has.
        count: u32,
        /// How many words of data each element has.
        data_words: u32,
        /// How many pointers each element has.
        pointers: u32,
    },
    /// A capability.
    #[non_exhaustive]
    Capability {
        /// Its index in the table of capabilities.
        index: u32,
    },
}

impl Kind {
    fn of(raw: &RawNode) -> Self {
        let RawNode {
            count,
            data_words,
            pointers,
            ..
        } = *raw;
        match raw.kind {
            0 => Self::Null,
            1 => Self::Struct {
                data_words,
                pointers,
            },
            2 => Self::Values {
                element: raw.element,
                count,
            },
            3 => Self::Pointers { count },
            4 => Self::Structs {
                count,
                data_words,
                pointers,
            },
            _ => Self::Capability {
                index: raw.capability,
            },
        }
    }
}

/// The head of the line that `capvet dump` prints for a node, such as `struct 1 3`.
impl fmt::Display for Kind {
    fn fmt(&self, f: &mut fmt::Formatter<'_>) -> fmt::Result {
        match self {
            Self::Null => f.write_str("null"),
            Self::Struct {
                data_words,
                pointers,
            } => write!(f, "struct {data_words} {pointers}"),
            Self::Values { element, count } => write!(f, "list {element} {count}"),
            Self::Pointers { count } => write!(f, "pointers {count}"),
            Self::Structs {
                count,
                data_words,
                pointers,
            } => write!(f, "structs {count} {data_words} {pointers}"),
            Self::Capability { index } => write!(f, "cap {index}"),
        }
    }
}

/// A node of a message, which borrows its bytes from the message.
#[derive(Clone, Copy, Debug, PartialEq, Eq)]
pub struct Node<'b> {
    kind: Kind,
    data: &'b [u8],
}

impl<'b> Node<'b> {
    pub(crate) fn of(bytes: &'b [u8], raw: &RawNode) -> Self {
        let (offset, length) = (raw.offset as usize, raw.length as usize);
        Self {
            kind: Kind::of(raw),
            data: &bytes[offset..offset + length],
        }
    }

    /// Its kind, with its sizes.
    #[must_use]
    pub const fn kind(&self) -> Kind {
        self.kind
    }

    /// Its own bytes, in place. Of a struct these are the data words, and of a list of values the values. Of a list of
    /// structs they are the elements, each with its data words and then its pointers. Other kinds have none.
    ///
    /// Bits after the last value of a list of bits may be anything.
    #[must_use]
    pub const fn data(&self) -> &'b [u8] {
        self.data
    }

    /// The number `i` of its own bytes, in units of 8 bits, or `None` after their end. See [`u64_at`](Node::u64_at).
    #[must_use]
    pub fn u8_at(&self, i: usize) -> Option<u8> {
        self.data.get(i).copied()
    }

    /// The number `i` of its own bytes, in units of 16 bits, or `None` after their end. See [`u64_at`](Node::u64_at).
    #[must_use]
    pub fn u16_at(&self, i: usize) -> Option<u16> {
        self.unit(i).map(u16::from_le_bytes)
    }

    /// The number `i` of its own bytes, in units of 32 bits, or `None` after their end. See [`u64_at`](Node::u64_at).
    #[must_use]
    pub fn u32_at(&self, i: usize) -> Option<u32> {
        self.unit(i).map(u32::from_le_bytes)
    }

    /// The number `i` of its own bytes, in units of 64 bits, or `None` after their end.
    ///
    /// In a struct this is the field that a schema places at `i` units of its size. A reader with a schema takes a field
    /// after the end as zero: `node.u64_at(i).unwrap_or(0)`. In a list of values of this size it is the element `i`.
    #[must_use]
    pub fn u64_at(&self, i: usize) -> Option<u64> {
        self.unit(i).map(u64::from_le_bytes)
    }

    /// The bit `i` of its own bytes, or `None` after their end. In a struct this is the field that a schema places at bit
    /// `i`, and in a list of bits the element `i`.
    #[must_use]
    pub fn bool_at(&self, i: usize) -> Option<bool> {
        match self.kind {
            Kind::Values { element: 1, count } if i >= count as usize => None,
            _ => Some((self.u8_at(i / 8)? >> (i % 8)) & 1 == 1),
        }
    }

    // The bytes of the number `i`, in units of `N` bytes.
    fn unit<const N: usize>(&self, i: usize) -> Option<[u8; N]> {
        let start = i.checked_mul(N)?;
        let unit = self.data.get(start..)?.get(..N)?;
        unit.try_into().ok()
    }

    /// Its text, if it is a list of bytes that are valid UTF-8 and a zero byte after them. Only a schema says whether it is a
    /// text.
    #[must_use]
    pub fn text(&self) -> Option<&'b str> {
        match self.kind {
            Kind::Values { element: 2, .. } => str::from_utf8(self.data.strip_suffix(&[0])?).ok(),
            _ => None,
        }
    }

    /// The elements of a list of structs, each of them a struct. Another kind of node has none.
    ///
    /// Their pointers are read by [`Message::get`](crate::Message::get), by the list's path with an element and a pointer after
    /// it.
    pub fn elements(&self) -> Elements<'b> {
        let (count, data_words, pointers) = match self.kind {
            Kind::Structs {
                count,
                data_words,
                pointers,
            } => (count, data_words, pointers),
            _ => (0, 0, 0),
        };
        Elements {
            rest: self.data,
            count,
            data_words,
            pointers,
        }
    }
}

/// As [`Kind`].
impl fmt::Display for Node<'_> {
    fn fmt(&self, f: &mut fmt::Formatter<'_>) -> fmt::Result {
        self.kind.fmt(f)
    }
}

/// An iterator over the elements of a list of structs; see [`Node::elements`].
#[derive(Clone, Debug)]
#[must_use = "an iterator does nothing before it is asked"]
pub struct Elements<'b> {
    rest: &'b [u8],
    count: u32,
    data_words: u32,
    pointers: u32,
}

impl<'b> Iterator for Elements<'b> {
    type Item = Node<'b>;

    fn next(&mut self) -> Option<Self::Item> {
        self.count = self.count.checked_sub(1)?;
        let (data_words, pointers) = (self.data_words, self.pointers);
        let (data, rest) = self.rest.split_at(8 * data_words as usize);
        self.rest = &rest[8 * pointers as usize..];
        Some(Node {
            kind: Kind::Struct {
                data_words,
                pointers,
            },
            data,
        })
    }

    fn size_hint(&self) -> (usize, Option<usize>) {
        (self.count as usize, Some(self.count as usize))
    }
}

impl ExactSizeIterator for Elements<'_> {}

impl FusedIterator for Elements<'_> {}

/// Returns the node at a path in the message that `bytes` are, which need not have been vetted: only the pointers on the path
/// are checked. `None` means that the path leads to nothing. It allocates nothing.
///
/// It is for a program that reads one field of a message and passes the message on. [`Message::get`](crate::Message::get) says
/// what a path is, and what `None` means.
///
/// # Errors
///
/// The first of these that applies.
///
/// - [`VetError::Frame`]: the bytes hold no complete frame within the limits, or trailing bytes follow the message.
/// - [`VetError::Refused`]: it names the first pointer on the path at which anything is wrong or a limit is exceeded, or the first
///   that isn't strict.
///
/// # Examples
///
/// ```
/// use capvet::{Limits, Step};
///
/// // A struct of two pointers. The first is null, and the second leads past the end of the segment.
/// let bytes = [
///     0, 0, 0, 0, 3, 0, 0, 0, 0, 0, 0, 0, 0, 0, 2, 0, 0, 0, 0, 0, 0, 0, 0, 0, 0, 0, 0, 0, 1, 0, 0, 0,
/// ];
/// let node = capvet::peek(&bytes, [Step::Pointer(0)], Limits::DEFAULT)?;
/// assert_eq!(node.unwrap().to_string(), "null");
/// let refused = capvet::peek(&bytes, [Step::Pointer(1)], Limits::DEFAULT).unwrap_err();
/// assert_eq!(refused.to_string(), "refused OutOfSegment at 0:2 pointers 2");
/// # Ok::<(), capvet::VetError>(())
/// ```
pub fn peek<P: AsRef<[Step]>>(
    bytes: &[u8],
    path: P,
    limits: Limits,
) -> Result<Option<Node<'_>>, VetError> {
    let (answer, raw_node, raw) = calls::get(bytes, &limits, path.as_ref());
    match answer {
        Answer::OK => Ok(Some(Node::of(bytes, &raw_node))),
        Answer::NO_NODE => Ok(None),
        _ => Err(VetError::of(answer, &raw)),
    }
}

#[cfg(all(test, feature = "std"))]
mod tests {
    use super::*;
    use crate::{vet, Path, Reason, Refusal};

    const HEADER: &str = include_str!("../../../include/capvet.h");
    const CONTACTS: &[u8] = include_bytes!("../../../examples/contacts.bin");
    const TELEMETRY: &[u8] = include_bytes!("../../../examples/telemetry.bin");

    fn found<'b>(bytes: &'b [u8], path: &str) -> Node<'b> {
        let steps: Path = path.parse().expect(path);
        let node = peek(bytes, &steps, Limits::DEFAULT);
        let node = node.expect("the path is accepted").expect(path);
        if let Ok(message) = vet(bytes, Limits::DEFAULT) {
            assert_eq!(message.get(&steps), Some(node));
        }
        node
    }

    #[test]
    fn kinds_have_the_numbers_of_the_header() {
        for (number, (name, line)) in [
            ("NULL", "null"),
            ("STRUCT", "struct 4 5"),
            ("VALUES", "list 2 3"),
            ("POINTERS", "pointers 3"),
            ("STRUCTS", "structs 3 4 5"),
            ("CAPABILITY", "cap 6"),
        ]
        .into_iter()
        .enumerate()
        {
            let member = format!("CAPVET_KIND_{name} = {number}");
            assert!(HEADER.contains(&member), "{member}");
            let raw = RawNode {
                kind: number as u32,
                element: 2,
                count: 3,
                data_words: 4,
                pointers: 5,
                capability: 6,
                ..crate::calls::NO_NODE
            };
            assert_eq!(Kind::of(&raw).to_string(), line);
        }
    }

    #[test]
    fn numbers_end_with_the_bytes() {
        let root = found(CONTACTS, "/");
        assert_eq!(root.to_string(), "struct 1 3");
        assert_eq!(root.u64_at(0), Some(0xd108_f750));
        assert_eq!((root.u64_at(1), root.u64_at(usize::MAX)), (None, None));
        assert_eq!(
            (root.u32_at(0), root.u32_at(1)),
            (Some(0xd108_f750), Some(0))
        );
        assert_eq!((root.u32_at(2), root.u16_at(1)), (None, Some(0xd108)));
        assert_eq!((root.u16_at(4), root.u8_at(7)), (None, Some(0)));
        assert_eq!((root.u8_at(3), root.u8_at(8)), (Some(0xd1), None));
        assert_eq!(
            (root.bool_at(4), root.bool_at(5)),
            (Some(true), Some(false))
        );
        assert_eq!((root.bool_at(63), root.bool_at(64)), (Some(false), None));
    }

    #[test]
    fn bits_end_with_the_count() {
        let bits = found(TELEMETRY, "/p0/i0/p0");
        assert_eq!(
            (bits.to_string(), bits.data().len()),
            ("list 1 42".to_owned(), 6)
        );
        let values: Vec<_> = (0..48).map(|i| bits.bool_at(i)).collect();
        assert!(values[..42].iter().all(Option::is_some));
        assert!(values[42..].iter().all(Option::is_none));
        assert_eq!(
            values[..4],
            [Some(true), Some(true), Some(false), Some(true)]
        );
        assert_eq!(bits.text(), None);
    }

    #[test]
    fn elements_are_structs_in_place() {
        let list = found(CONTACTS, "/p0");
        let elements = list.elements();
        assert_eq!(
            (list.to_string(), elements.len()),
            ("structs 7 1 6".to_owned(), 7)
        );
        for (i, element) in elements.enumerate() {
            assert_eq!(element, found(CONTACTS, &format!("/p0/i{i}")));
            assert_eq!(element.kind().to_string(), "struct 1 6");
        }
        assert_eq!(found(CONTACTS, "/").elements().next(), None);
    }

    #[test]
    fn a_text_is_valid_and_ends_in_zero() {
        assert_eq!(
            found(CONTACTS, "/p0/i0/p0").text(),
            Some("fjord Ω Grüße lantern Grüße")
        );
        assert_eq!(found(CONTACTS, "/p0/i1/p0").text(), Some(""));
        assert_eq!(found(CONTACTS, "/p0").text(), None);
        let bytes = |data: &'static [u8]| Node {
            kind: Kind::Values {
                element: 2,
                count: data.len() as u32,
            },
            data,
        };
        assert_eq!(bytes(b"ab\0").text(), Some("ab"));
        assert_eq!(bytes(b"ab").text(), None);
        assert_eq!(bytes(b"\xff\0").text(), None);
        assert_eq!(bytes(b"").text(), None);
    }

    #[test]
    fn a_frame_is_whole() {
        let more = [CONTACTS, &[7]].concat();
        for (bytes, text) in [(&[][..], "NoMessage"), (&more, "Trailing 1")] {
            for path in [&[][..], &[Step::Pointer(0)]] {
                let error = peek(bytes, path, Limits::DEFAULT).expect_err("it is no frame");
                assert_eq!(error.to_string(), text);
            }
        }
    }

    #[test]
    fn a_path_leads_to_nothing() {
        let message = vet(CONTACTS, Limits::DEFAULT).expect("the sample is accepted");
        for path in ["/p3", "/i0", "/p0/i7", "/p0/p0", "/p0/i1/p0/i0", "/p65535"] {
            let path: Path = path.parse().expect(path);
            assert_eq!(peek(CONTACTS, &path, Limits::DEFAULT), Ok(None));
            assert_eq!(message.get(&path), None);
        }
    }

    // A struct whose pointer leads back to itself: at each path there is a node, up to the limit of levels.
    #[test]
    fn long_paths_have_a_node_or_a_refusal() {
        let cycle = [0, 0, 0, 0, 1, 0, 0, 0, 0xfc, 0xff, 0xff, 0xff, 0, 0, 1, 0];
        for (depth, length) in [(3, 2), (16, 15), (17, 16), (18, 17), (256, 255)] {
            let limits = Limits::DEFAULT.with_depth(depth);
            let path = vec![Step::Pointer(0); length + 1];
            let kind = |path: &[Step]| peek(&cycle, path, limits).map(|it| it.map(|it| it.kind()));
            assert!(matches!(
                kind(&path[..length]),
                Ok(Some(Kind::Struct { .. }))
            ));
            let error = kind(&path).expect_err("it is too deep");
            assert_eq!(error.name(), "DepthLimit");
            assert_eq!(kind(&[Step::Pointer(0); 2000]), Err(error));
        }
    }

    #[test]
    fn only_the_pointers_on_the_path_are_checked() {
        let limits = Limits::DEFAULT;
        let mut damaged = CONTACTS.to_vec();
        // The pointer at word 7, which is /p0/i0/p0, leads outside.
        damaged[66] ^= 0x40;
        let error = crate::vet(&damaged, limits).expect_err("it is refused");
        assert_eq!(error.to_string(), "refused OutOfSegment at 0:7 pointers 3");
        assert_eq!(found(&damaged, "/p0").kind(), found(CONTACTS, "/p0").kind());
        assert_eq!(found(&damaged, "/p0/i1/p0").text(), Some(""));
        let path = [Step::Pointer(0), Step::Element(0), Step::Pointer(0)];
        match peek(&damaged, path, limits) {
            Err(VetError::Refused(Refusal {
                reason, pointer, ..
            })) => {
                assert_eq!(reason, Reason::OutOfSegment);
                let position = pointer.expect("it names a pointer").position;
                assert_eq!(position.to_string(), "0:7");
            }
            other => panic!("{other:?}"),
        }
    }
}
