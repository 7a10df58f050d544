// crates/cap_vet/src/nodes/vetted.rt without its contracts, by tools/erase: that text is proved, this one is only tested.
//! A message that was accepted.

use crate::cap_frame::Segments;
use crate::cap_spec::Step;
use crate::cap_vet::nodes::node::Node;
use crate::cap_vet::nodes::spot::Spot;
use crate::cap_walk::Report;
use crate::rattle::alloc::AllocError;

/// A message whose root denotes one finite tree, of the reported numbers, within the greatest limits:
/// at most 268435456 words and 256 levels.
pub struct Vetted<'m, M: Segments> {
    pub(crate) message: &'m M,
    pub(crate) report: Report,
}

impl<'m, M: Segments> Clone for Vetted<'m, M> {
    fn clone(&self) -> Vetted<'m, M> {
        *self
    }
}

impl<'m, M: Segments> Copy for Vetted<'m, M> {}

impl<'m, M: Segments> Vetted<'m, M> {
    /// The charge, the depth, the pointers and the capabilities of the message's tree, which is
    /// within 268435456 words and 256 levels.
    pub fn report(&self) -> Report {
        self.report
    }

    /// The message itself, whose root denotes that tree.
    pub fn message(&self) -> &'m M {
        self.message
    }

    /// The node of the empty path: what the root pointer denotes. Takes no memory.
    pub fn root(&self) -> Node<'m, M> {
        Node {
            message: self.message,
            spot: Spot::Word {
                segment: 0,
                word: 0,
            },
        }
    }

    /// The node at a path of steps from the root, or `None` if the tree has none there. A step goes
    /// to a pointer of a struct, or to an element of a list of pointers or of structs, by its
    /// number from 0. From an element of a list of structs it goes on as from a struct. Follows
    /// each pointer on the path but the last. Allocates nothing.
    pub fn get(&self, path: &[Step]) -> Option<Node<'m, M>> {
        let mut node = self.root();
        for step in path {
            match node.child(*step) {
                Some(child) => node = child,
                None => return None,
            }
        }
        Some(node)
    }
}
