//! A full walk by `capnp` 0.14: a reader of every node, made by calls of `capnp::private`.

use capnp::message::{Reader, ReaderSegments};
use capnp::private::layout::{ElementSize, ListReader, PointerReader, PointerType, StructReader};
use capnp::traits::{FromPointerReader, IntoInternalListReader};
use capnp::{raw, Result, Word};

/// Reads every node of a message, and counts their words.
pub fn words(message: &Reader<impl ReaderSegments>) -> Result<u64> {
    walk(message.get_root::<Root>()?.0)
}

struct Root<'a>(PointerReader<'a>);

impl<'a> FromPointerReader<'a> for Root<'a> {
    fn get_from_pointer(pointer: &PointerReader<'a>, _: Option<&'a [Word]>) -> Result<Self> {
        Ok(Root(*pointer))
    }
}

struct AnyList<'a>(ListReader<'a>);

impl<'a> IntoInternalListReader<'a> for AnyList<'a> {
    fn into_internal_list_reader(self) -> ListReader<'a> {
        self.0
    }
}

/// Reads every node that a pointer leads to, and counts their words.
fn walk(pointer: PointerReader<'_>) -> Result<u64> {
    match pointer.get_pointer_type()? {
        PointerType::Null | PointerType::Capability => Ok(0),
        PointerType::Struct => walk_struct(pointer.get_struct(None)?),
        // No call reads a list of any element size: one of bits has to be asked for as such.
        PointerType::List => walk_list(
            pointer
                .get_list(ElementSize::Void, None)
                .or_else(|_| pointer.get_list(ElementSize::Bit, None))?,
        ),
    }
}

fn walk_struct(node: StructReader<'_>) -> Result<u64> {
    let pointers = node.get_pointer_section_size() as usize;
    let mut words = node.get_data_section_size() as u64 / 64 + pointers as u64;
    for i in 0..pointers {
        words += walk(node.get_pointer_field(i))?;
    }
    Ok(words)
}

fn walk_list(list: ListReader<'_>) -> Result<u64> {
    match raw::get_list_element_size(AnyList(list)) {
        ElementSize::Pointer => {
            let mut words = list.len() as u64;
            for i in 0..list.len() {
                words += walk(list.get_pointer_element(i))?;
            }
            Ok(words)
        }
        ElementSize::InlineComposite => {
            let mut words = 1;
            for i in 0..list.len() {
                words += walk_struct(list.get_struct_element(i))?;
            }
            Ok(words)
        }
        _ => Ok((raw::get_list_bytes(AnyList(list)).len() as u64 + 7) / 8),
    }
}
