//! Walks a whole message by the crate `capnp`.

use capnp::message::{Reader, ReaderSegments};
use capnp::private::layout::{ElementSize, ListReader, PointerReader, PointerType, StructReader};
use capnp::traits::{FromPointerReader, IntoInternalListReader, IntoInternalStructReader};
use capnp::{any_pointer_list, raw, Result, Word};

#[path = "structs.rs"]
mod structs;
use structs::structs;

struct Root<'a>(PointerReader<'a>);

impl<'a> FromPointerReader<'a> for Root<'a> {
    fn get_from_pointer(pointer: &PointerReader<'a>, _: Option<&'a [Word]>) -> Result<Self> {
        Ok(Root(*pointer))
    }
}

struct AnyList<'a>(ListReader<'a>);

impl<'a> IntoInternalListReader<'a> for AnyList<'a> {
    fn into_internal_list_reader(self) -> ListReader<'a> {
        self.0
    }
}

struct AnyStruct<'a>(StructReader<'a>);

impl<'a> IntoInternalStructReader<'a> for AnyStruct<'a> {
    fn into_internal_struct_reader(self) -> StructReader<'a> {
        self.0
    }
}

/// Counts pointers and capabilities, and adds up all bytes.
#[derive(Default)]
struct Walk {
    upgrades: bool,
    pointers: u64,
    caps: u64,
    sum: u64,
}

impl Walk {
    fn pointer(&mut self, pointer: PointerReader<'_>) -> Result<()> {
        self.pointers += 1;
        match pointer.get_pointer_type()? {
            PointerType::Null => null(pointer),
            PointerType::Capability => {
                self.caps += 1;
                match pointer.get_capability() {
                    Err(error) if !error.to_string().contains("invalid capability pointer") => {
                        Err(error)
                    }
                    _ => Ok(()),
                }
            }
            PointerType::Struct => self.node(pointer.get_struct(None)?),
            PointerType::List => self.list(pointer),
        }
    }

    fn node(&mut self, node: StructReader<'_>) -> Result<()> {
        self.bytes(raw::get_struct_data_section(AnyStruct(node)));
        self.pointers(raw::get_struct_pointer_section(AnyStruct(node)))
    }

    fn pointers(&mut self, list: any_pointer_list::Reader<'_>) -> Result<()> {
        (0..list.len()).try_for_each(|i| self.pointer(list.get(i).get_as::<Root>()?.0))
    }

    fn list(&mut self, pointer: PointerReader<'_>) -> Result<()> {
        // No call reads a list of any element size: one of bits has to be asked for as such.
        let list = pointer
            .get_list(ElementSize::Void, None)
            .or_else(|_| pointer.get_list(ElementSize::Bit, None))?;
        let size = raw::get_list_element_size(AnyList(list));
        if self.upgrades && size != ElementSize::Bit {
            return structs(pointer)?.try_for_each(|it| self.node(it));
        }
        match size {
            ElementSize::InlineComposite => structs(pointer)?.try_for_each(|it| self.node(it)),
            ElementSize::Pointer => {
                self.pointers(FromPointerReader::get_from_pointer(&pointer, None)?)
            }
            _ => {
                let bytes = match size {
                    ElementSize::Byte => pointer.get_data(None)?,
                    _ => raw::get_list_bytes(AnyList(list)),
                };
                self.bytes(bytes);
                Ok(())
            }
        }
    }

    fn bytes(&mut self, bytes: &[u8]) {
        self.sum += bytes.iter().map(|&byte| u64::from(byte)).sum::<u64>();
    }
}

/// A null pointer is the default of each kind.
fn null(pointer: PointerReader<'_>) -> Result<()> {
    pointer.get_struct(None)?;
    pointer.get_list(ElementSize::Void, None)?;
    pointer.get_list(ElementSize::Bit, None)?;
    pointer.get_text(None)?;
    pointer.get_data(None)?;
    Ok(())
}

/// The line of a walk: the sum of all bytes, the pointers and the capabilities.
pub fn walk(message: &Reader<impl ReaderSegments>, upgrades: bool) -> Result<String> {
    let mut walk = Walk {
        upgrades,
        ..Walk::default()
    };
    walk.pointer(message.get_root::<Root>()?.0)?;
    let Walk {
        pointers,
        caps,
        sum,
        ..
    } = walk;
    Ok(format!("sum {sum} pointers {pointers} caps {caps}"))
}
