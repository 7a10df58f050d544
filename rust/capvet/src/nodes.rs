//! The nodes at paths of which one step varies.

use crate::calls::{self, Answer, RawNode, NO_NODE};
use crate::{peek, Kind, Limits, Node, Step, VetError};
use core::iter::FusedIterator;

// How many nodes are found by one call of the library.
const BLOCK: usize = 8;

/// An iterator over the nodes at paths of which one step varies; see [`peek_range`].
#[derive(Clone, Debug)]
#[must_use = "an iterator finds nothing before it is asked"]
pub struct PeekNodes<'b, P> {
    bytes: &'b [u8],
    path: P,
    varying: usize,
    limits: Limits,
    // how much is added to the number of the step, and how many nodes are left
    more: u32,
    left: u32,
    block: [RawNode; BLOCK],
    // how many nodes of the block were found, and how many of these were returned
    found: usize,
    returned: usize,
    // what the path after these leads to, if it isn't a further block
    after: Option<Result<(), VetError>>,
}

/// Returns an iterator over the nodes at a series of paths in the message that `bytes` are, which need not have been vetted. Only
/// the pointers on the paths are checked, and the limits apply to each path by itself. It allocates nothing.
///
/// [`Message::get_range`](crate::Message::get_range) says what the paths are. Each item is what [`peek`] returns for its path. An
/// error is the last item: to skip that path, call again with a greater number in the step.
///
/// # Panics
///
/// If the path has no step `varying`.
///
/// # Examples
///
/// ```
/// use capvet::{Limits, Step};
///
/// // A struct of two pointers. The first is null, and the second leads past the end of the segment.
/// let bytes = [
///     0, 0, 0, 0, 3, 0, 0, 0, 0, 0, 0, 0, 0, 0, 2, 0, 0, 0, 0, 0, 0, 0, 0, 0, 0, 0, 0, 0, 1, 0, 0, 0,
/// ];
/// let mut nodes = capvet::peek_range(&bytes, [Step::Pointer(0)], 0, Limits::DEFAULT);
/// assert_eq!(nodes.next().unwrap()?.unwrap().to_string(), "null");
/// assert!(nodes.next().unwrap().is_err());
/// assert!(nodes.next().is_none());
/// # Ok::<(), capvet::VetError>(())
/// ```
pub fn peek_range<P: AsRef<[Step]>>(
    bytes: &[u8],
    path: P,
    varying: usize,
    limits: Limits,
) -> PeekNodes<'_, P> {
    let steps = path.as_ref();
    let first = steps[varying];
    let (left, after) = match peek(bytes, &steps[..varying], limits) {
        Ok(node) => (node.map_or(0, |node| numbers(&node, first)), None),
        Err(error) => (1, Some(Err(error))),
    };
    PeekNodes {
        bytes,
        path,
        varying,
        limits,
        more: 0,
        left,
        block: [NO_NODE; BLOCK],
        found: 0,
        returned: 0,
        after,
    }
}

// How many numbers a step from this node can have, from this one on.
fn numbers(node: &Node<'_>, first: Step) -> u32 {
    let (count, number) = match (node.kind(), first) {
        (Kind::Struct { pointers, .. }, Step::Pointer(number)) => (pointers, number.into()),
        (Kind::Pointers { count } | Kind::Structs { count, .. }, Step::Element(number)) => {
            (count, number)
        }
        _ => (0, 0),
    };
    count.saturating_sub(number)
}

impl<P: AsRef<[Step]>> PeekNodes<'_, P> {
    // Finds the nodes of the next block.
    fn find(&mut self) {
        let count = BLOCK.min(self.left as usize);
        let (answer, found, raw) = calls::get_range(
            self.bytes,
            &self.limits,
            self.path.as_ref(),
            self.varying,
            self.more,
            &mut self.block[..count],
        );
        (self.found, self.returned) = (found, 0);
        self.after = match answer {
            Answer::OK => None,
            Answer::NO_NODE => Some(Ok(())),
            _ => Some(Err(VetError::of(answer, &raw))),
        };
    }
}

impl<'b, P: AsRef<[Step]>> Iterator for PeekNodes<'b, P> {
    type Item = Result<Option<Node<'b>>, VetError>;

    fn next(&mut self) -> Option<Self::Item> {
        if self.left == 0 {
            return None;
        }
        if self.returned == self.found && self.after.is_none() {
            self.find();
        }
        (self.left, self.more) = (self.left - 1, self.more + 1);
        if self.returned < self.found {
            let node = Node::of(self.bytes, &self.block[self.returned]);
            self.returned += 1;
            return Some(Ok(Some(node)));
        }
        Some(match self.after.take()? {
            Ok(()) => Ok(None),
            Err(error) => {
                self.left = 0;
                Err(error)
            }
        })
    }
}

impl<P: AsRef<[Step]>> FusedIterator for PeekNodes<'_, P> {}

/// An iterator over the nodes at paths of which one step varies; see [`Message::get_range`](crate::Message::get_range).
#[derive(Clone, Debug)]
#[must_use = "an iterator finds nothing before it is asked"]
pub struct Nodes<'b, P>(PeekNodes<'b, P>);

impl<'b, P: AsRef<[Step]>> Nodes<'b, P> {
    // Those of a vetted message.
    pub(crate) fn of(bytes: &'b [u8], path: P, varying: usize) -> Self {
        Self(peek_range(bytes, path, varying, Limits::LARGEST))
    }
}

impl<'b, P: AsRef<[Step]>> Iterator for Nodes<'b, P> {
    type Item = Option<Node<'b>>;

    fn next(&mut self) -> Option<Self::Item> {
        // (a vetted message isn't refused)
        self.0.next().map(|found| found.unwrap_or(None))
    }

    fn size_hint(&self) -> (usize, Option<usize>) {
        (self.0.left as usize, Some(self.0.left as usize))
    }
}

impl<P: AsRef<[Step]>> ExactSizeIterator for Nodes<'_, P> {}

impl<P: AsRef<[Step]>> FusedIterator for Nodes<'_, P> {}

#[cfg(all(test, feature = "std"))]
mod tests {
    use super::Step::{Element, Pointer};
    use super::*;
    use crate::{vet, Reason};

    const CONTACTS: &[u8] = include_bytes!("../../../examples/contacts.bin");
    const MANY_SEGMENTS: &[u8] = include_bytes!("../../../examples/contacts-many-segments.bin");
    const TELEMETRY: &[u8] = include_bytes!("../../../examples/telemetry.bin");

    // A message whose root has one pointer, to a list of these pointers.
    fn list_of(pointers: &[u64]) -> Vec<u8> {
        let count = pointers.len() as u64;
        let words = [(count + 2) << 32, 1 << 48, 1 | ((6 | (count << 3)) << 32)];
        let words = words.iter().chain(pointers);
        words.flat_map(|word| word.to_le_bytes()).collect()
    }

    // The pointers of this many capabilities, from 0.
    fn capabilities(count: u64) -> Vec<u64> {
        (0..count).map(|index| 3 | (index << 32)).collect()
    }

    // The elements of the list, from this number on.
    fn elements(bytes: &[u8], from: u32) -> PeekNodes<'_, [Step; 2]> {
        peek_range(bytes, [Pointer(0), Element(from)], 1, Limits::DEFAULT)
    }

    // The indices of capabilities.
    fn indices<'b>(nodes: impl Iterator<Item = Result<Option<Node<'b>>, VetError>>) -> Vec<u32> {
        let index = |node: Option<Node<'b>>| match node.expect("a node").kind() {
            Kind::Capability { index, .. } => index,
            other => panic!("{other}"),
        };
        nodes.map(|node| index(node.expect("accepted"))).collect()
    }

    // The step with a number that is so much more.
    fn plus(step: Step, more: usize) -> Step {
        match step {
            Pointer(number) => Pointer(number + more as u16),
            Element(number) => Element(number + more as u32),
        }
    }

    #[test]
    fn each_node_is_that_of_its_path() {
        for (bytes, steps, varying, count) in [
            (CONTACTS, vec![Pointer(0)], 0, 3),
            (CONTACTS, vec![Pointer(1)], 0, 2),
            (CONTACTS, vec![Pointer(0), Element(0)], 1, 7),
            (CONTACTS, vec![Pointer(0), Element(3)], 1, 4),
            (CONTACTS, vec![Pointer(0), Element(0), Pointer(0)], 1, 7),
            (CONTACTS, vec![Pointer(0), Element(2), Pointer(5)], 1, 5),
            (CONTACTS, vec![Pointer(0), Element(0), Pointer(2)], 2, 4),
            // (some have no phone: numbers 1, 3 and 6)
            (
                CONTACTS,
                vec![Pointer(0), Element(0), Pointer(2), Element(0)],
                1,
                7,
            ),
            (
                MANY_SEGMENTS,
                vec![Pointer(0), Element(0), Pointer(2)],
                1,
                7,
            ),
            (TELEMETRY, vec![Pointer(0), Element(0), Pointer(0)], 1, 3),
            // (there is no such list or struct, or none from this number on)
            (CONTACTS, vec![Element(0)], 0, 0),
            (CONTACTS, vec![Pointer(0), Pointer(0)], 1, 0),
            (CONTACTS, vec![Pointer(7), Element(0)], 1, 0),
            (CONTACTS, vec![Pointer(0), Element(7)], 1, 0),
            (CONTACTS, vec![Pointer(0), Element(u32::MAX)], 1, 0),
            (CONTACTS, vec![Pointer(u16::MAX)], 0, 0),
        ] {
            let message = vet(bytes, Limits::DEFAULT).expect("the sample is accepted");
            let nodes = message.get_range(&steps, varying);
            assert_eq!(nodes.len(), count, "{steps:?}");
            let mut path = steps.clone();
            let expected: Vec<_> = (0..count)
                .map(|more| {
                    path[varying] = plus(steps[varying], more);
                    message.get(&path)
                })
                .collect();
            assert_eq!(nodes.collect::<Vec<_>>(), expected, "{steps:?}");
            let peeked: Result<Vec<_>, _> =
                peek_range(bytes, steps, varying, Limits::DEFAULT).collect();
            assert_eq!(peeked, Ok(expected));
        }
    }

    #[test]
    fn an_element_without_the_node_is_none() {
        let message = vet(CONTACTS, Limits::DEFAULT).expect("the sample is accepted");
        let path = [Pointer(0), Element(0), Pointer(2), Element(0)];
        let found = message.get_range(path, 1).map(|it| it.is_some());
        let expected = [true, false, true, false, true, true, false];
        assert_eq!(found.collect::<Vec<_>>(), expected);
    }

    #[test]
    fn blocks_follow_one_another() {
        for count in [0, 1, 7, 8, 9, 15, 16, 17, 100] {
            let message = list_of(&capabilities(count));
            let expected: Vec<_> = (0..count as u32).collect();
            assert_eq!(indices(elements(&message, 0)), expected);
            let more = elements(&message, 3);
            assert_eq!(indices(more), expected.get(3..).unwrap_or_default());
        }
    }

    #[test]
    fn a_fault_before_the_step_is_one_item() {
        let mut message = list_of(&capabilities(40));
        // The pointer to the list leads outside.
        message[16] ^= 0x40;
        let mut nodes = elements(&message, 0);
        let error = nodes.next().expect("an item").expect_err("it is refused");
        assert_eq!(Err(error), peek(&message, [Pointer(0)], Limits::DEFAULT));
        assert_eq!(error.to_string(), "refused OutOfSegment at 0:1 pointers 2");
        assert_eq!((nodes.next(), nodes.next()), (None, None));
        let mut nodes = elements(&[], 0);
        assert!(nodes.next().expect("an item").is_err());
        assert_eq!(nodes.next(), None);
    }

    #[test]
    fn a_fault_is_the_last_item() {
        for at in [0, 5, 7, 8, 15, 16, 20, 39] {
            let mut pointers = capabilities(40);
            // A struct of one word, which is outside.
            pointers[at] = (0x7fff << 2) | (1 << 32);
            let message = list_of(&pointers);
            let mut nodes = elements(&message, 0);
            let before: Vec<_> = (0..at as u32).collect();
            assert_eq!(indices(nodes.by_ref().take(at)), before);
            match nodes.next() {
                Some(Err(VetError::Refused(refusal))) => {
                    assert_eq!(refusal.reason, Reason::OutOfSegment);
                    let position = refusal.pointer.expect("it names a pointer").position;
                    assert_eq!(position.word as usize, 2 + at);
                }
                other => panic!("{other:?}"),
            }
            assert_eq!((nodes.next(), nodes.next()), (None, None));
            // The caller skips it.
            let after: Vec<_> = (at as u32 + 1..40).collect();
            assert_eq!(indices(elements(&message, at as u32 + 1)), after);
        }
    }

    #[test]
    #[should_panic(expected = "index out of bounds")]
    fn there_is_a_step_that_varies() {
        let _ = peek_range(CONTACTS, [Pointer(0)], 1, Limits::DEFAULT);
    }

    // A struct whose pointer leads back to itself.
    #[test]
    fn a_long_path_has_the_answer_of_its_node() {
        let cycle = [0, 0, 0, 0, 1, 0, 0, 0, 0xfc, 0xff, 0xff, 0xff, 0, 0, 1, 0];
        let limits = Limits::DEFAULT.with_depth(Limits::MAX_DEPTH);
        for length in [15, 16, 17, 255, 256, 257, 513, 514, 515, 2000] {
            let steps = vec![Pointer(0); length];
            let expected = peek(&cycle, &steps, limits);
            for varying in [0, length / 2, length - 1] {
                let found: Vec<_> = peek_range(&cycle, &steps, varying, limits).collect();
                assert_eq!(found, [expected], "{length} {varying}");
            }
            assert_eq!(expected.is_ok(), length < 256);
        }
    }
}
