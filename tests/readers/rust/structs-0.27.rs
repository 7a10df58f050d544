//! The elements of a list as structs, by `capnp` 0.27. It reads any struct as a struct of its own schema.

use capnp::private::layout::{PointerReader, StructReader};
use capnp::schema_capnp::node;
use capnp::traits::{FromPointerReader, IntoInternalStructReader};
use capnp::{struct_list, Result};

pub fn structs(pointer: PointerReader<'_>) -> Result<impl Iterator<Item = StructReader<'_>>> {
    let list = struct_list::Reader::<node::Owned>::get_from_pointer(&pointer, None)?;
    Ok(list
        .into_iter()
        .map(IntoInternalStructReader::into_internal_struct_reader))
}
