//! The elements of a list as structs, by `capnp` 0.14 and 0.19.

use capnp::private::layout::{ElementSize, PointerReader, StructReader};
use capnp::Result;

pub fn structs(pointer: PointerReader<'_>) -> Result<impl Iterator<Item = StructReader<'_>>> {
    let list = pointer.get_list(ElementSize::InlineComposite, None)?;
    Ok((0..list.len()).map(move |i| list.get_struct_element(i)))
}
