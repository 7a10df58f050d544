// crates/cap_text/src/get.rt without its contracts, by tools/erase: that text is proved, this one is only tested.
//! The text for the node at a path.

use crate::cap_text::node::put_node;
use crate::cap_text::page::{message_line, write_bytes, write_page, Page};
use capvet_core::cap_frame::Segments;
use capvet_core::cap_vet::Node;
use capvet_core::cap_words::{ByteOut, OutFault};

/// Writes about message `number` its node at a path, without the node's children, or that there is
/// none (docs/output.md, get). What the page held before isn't written.
///
/// # Errors
///
/// The error of the output, which took a prefix of the text.
pub fn write_node<M: Segments, O: ByteOut>(
    page: &mut Page,
    out: &mut O,
    number: u32,
    node: Option<Node<'_, M>>,
) -> Result<(), OutFault> {
    let node = if let Some(node) = node {
        node
    } else {
        message_line(page, number, b"none");
        return write_bytes(out, page.text());
    };
    message_line(page, number, b"found");
    match put_node(page, out, b"node", &node) {
        Ok(()) => write_page(page, out),
        Err(fault) => Err(fault),
    }
}
