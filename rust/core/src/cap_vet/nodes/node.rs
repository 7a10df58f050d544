// crates/cap_vet/src/nodes/node.rt without its contracts, by tools/erase: that text is proved, this one is only tested.
//! Nodes of the tree of an accepted message.

use crate::cap_frame::Segments;
use crate::cap_spec::Step;
use crate::cap_vet::nodes::found::{element, found_at, Found};
use crate::cap_vet::nodes::spot::Spot;
use crate::cap_vet::nodes::view::View;
use crate::rattle::alloc::AllocError;

/// A node of the tree that an accepted message's root denotes (encoding: Objects). It is the
/// pointer word that leads to it, or the element of a list of structs, in a message that it
/// borrows. It knows no path.
pub struct Node<'m, M: Segments> {
    pub(crate) message: &'m M,
    pub(crate) spot: Spot,
}

impl<'m, M: Segments> Clone for Node<'m, M> {
    fn clone(&self) -> Node<'m, M> {
        *self
    }
}

impl<'m, M: Segments> Copy for Node<'m, M> {}

impl<'m, M: Segments> Node<'m, M> {
    // What is at the node's spot. Following its pointer can't fail. It and its callers are inlined,
    // so that the result stays in registers.
    #[inline(always)]
    fn found(&self) -> Found {
        match self.spot {
            Spot::Word { segment, word } => found_at(self.message, segment, word),
            Spot::Element {
                segment,
                start,
                data_words,
                pointers,
            } => element(segment, start, data_words, pointers),
        }
    }

    /// A view of the node: what it is without its children. A pointer that leads to it is followed
    /// again. Allocates nothing.
    #[inline(always)]
    pub fn view(&self) -> View<'m, M> {
        View {
            message: self.message,
            found: self.found(),
        }
    }

    /// The node that one step leads to, or `None` where this node has no such part: a struct's pointer
    /// `i`, or element `i` of a list of pointers or of structs. The child of a path's node is the node
    /// of that path with the step added. Takes no memory.
    #[inline(always)]
    pub fn child(&self, step: Step) -> Option<Node<'m, M>> {
        let next = self.found().step(step)?;
        let child = Node {
            message: self.message,
            spot: next,
        };
        Some(child)
    }
}
