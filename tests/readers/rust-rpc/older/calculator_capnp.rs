// What `capnpc` 0.14 makes of `examples/cpp/calculator.capnp`, as far as the server and the client need it. It is written by hand,
// because Debian 12 has no package of `capnpc`.

use capnp::capability::{
    FromClientHook, FromServer, FromTypelessPipeline, Params, Promise, Request, Results,
};
use capnp::private::capability::{
    internal_get_typed_params, internal_get_typed_results, ClientHook,
};
use capnp::private::layout::{
    CapTable, CapTableBuilder, CapTableReader, PointerBuilder, PointerReader, StructBuilder,
    StructReader, StructSize,
};
use capnp::traits;
use capnp::{any_pointer, struct_list, text, Error, Word};
use std::ops::{Deref, DerefMut};

// A struct with these numbers of data words and of pointers.
macro_rules! structs {
    ($($name:ident: $data:literal, $pointers:literal;)+) => {$(
        pub mod $name {
            use super::*;

            const SIZE: StructSize = StructSize { data: $data, pointers: $pointers };

            #[derive(Clone, Copy)]
            pub struct Owned;

            impl<'a> traits::Owned<'a> for Owned {
                type Reader = Reader<'a>;
                type Builder = Builder<'a>;
            }

            impl<'a> traits::OwnedStruct<'a> for Owned {
                type Reader = Reader<'a>;
                type Builder = Builder<'a>;
            }

            impl traits::Pipelined for Owned {
                type Pipeline = Pipeline;
            }

            #[derive(Clone, Copy)]
            pub struct Reader<'a>(pub(super) StructReader<'a>);

            impl<'a> traits::FromStructReader<'a> for Reader<'a> {
                fn new(reader: StructReader<'a>) -> Self {
                    Self(reader)
                }
            }

            impl<'a> traits::FromPointerReader<'a> for Reader<'a> {
                fn get_from_pointer(
                    pointer: &PointerReader<'a>,
                    default: Option<&'a [Word]>,
                ) -> capnp::Result<Self> {
                    Ok(Self(pointer.get_struct(default)?))
                }
            }

            impl<'a> traits::IntoInternalStructReader<'a> for Reader<'a> {
                fn into_internal_struct_reader(self) -> StructReader<'a> {
                    self.0
                }
            }

            impl<'a> traits::Imbue<'a> for Reader<'a> {
                fn imbue(&mut self, table: &'a CapTable) {
                    self.0.imbue(CapTableReader::Plain(table))
                }
            }

            impl traits::SetPointerBuilder for Reader<'_> {
                fn set_pointer_builder(
                    pointer: PointerBuilder<'_>,
                    from: Self,
                    canonicalize: bool,
                ) -> capnp::Result<()> {
                    pointer.set_struct(&from.0, canonicalize)
                }
            }

            pub struct Builder<'a>(pub(super) StructBuilder<'a>);

            impl traits::HasStructSize for Builder<'_> {
                fn struct_size() -> StructSize {
                    SIZE
                }
            }

            impl<'a> traits::FromStructBuilder<'a> for Builder<'a> {
                fn new(builder: StructBuilder<'a>) -> Self {
                    Self(builder)
                }
            }

            impl<'a> traits::FromPointerBuilder<'a> for Builder<'a> {
                fn init_pointer(pointer: PointerBuilder<'a>, _: u32) -> Self {
                    Self(pointer.init_struct(SIZE))
                }

                fn get_from_pointer(
                    pointer: PointerBuilder<'a>,
                    default: Option<&'a [Word]>,
                ) -> capnp::Result<Self> {
                    Ok(Self(pointer.get_struct(SIZE, default)?))
                }
            }

            impl<'a> traits::ImbueMut<'a> for Builder<'a> {
                fn imbue_mut(&mut self, table: &'a mut CapTable) {
                    self.0.imbue(CapTableBuilder::Plain(table))
                }
            }

            pub struct Pipeline(pub any_pointer::Pipeline);

            impl FromTypelessPipeline for Pipeline {
                fn new(typeless: any_pointer::Pipeline) -> Self {
                    Self(typeless)
                }
            }
        }
    )+};
}

structs! {
    row: 1, 1;
    nothing: 0, 0;
    next_results: 1, 0;
    add_params: 2, 0;
    add_results: 1, 0;
    counter_params: 1, 0;
    counter_results: 0, 1;
    rows_params: 1, 0;
    rows_results: 0, 1;
    store_params: 0, 1;
    store_results: 1, 0;
}

// Fields in the data of a struct: the field's number, counted in fields of this type.
macro_rules! fields {
    ($($name:ident: $get:ident, $set:ident, $type:ty, $number:literal;)+) => {$(
        impl $name::Reader<'_> {
            pub fn $get(self) -> $type {
                self.0.get_data_field::<$type>($number)
            }
        }

        impl $name::Builder<'_> {
            pub fn $set(&mut self, value: $type) {
                self.0.set_data_field::<$type>($number, value)
            }
        }
    )+};
}

fields! {
    row: get_id, set_id, u64, 0;
    next_results: get_number, set_number, u64, 0;
    add_params: get_a, set_a, f64, 0;
    add_params: get_b, set_b, f64, 1;
    add_results: get_sum, set_sum, f64, 0;
    counter_params: get_start, set_start, u64, 0;
    rows_params: get_count, set_count, u32, 0;
    store_results: get_count, set_count, u32, 0;
}

pub type Rows<'a> = struct_list::Reader<'a, row::Owned>;

impl<'a> row::Reader<'a> {
    pub fn get_name(self) -> capnp::Result<text::Reader<'a>> {
        traits::FromPointerReader::get_from_pointer(&self.0.get_pointer_field(0), None)
    }
}

impl row::Builder<'_> {
    pub fn set_name(&mut self, name: &str) {
        self.0.get_pointer_field(0).set_text(name)
    }
}

impl<'a> rows_results::Reader<'a> {
    pub fn get_rows(self) -> capnp::Result<Rows<'a>> {
        traits::FromPointerReader::get_from_pointer(&self.0.get_pointer_field(0), None)
    }
}

impl<'a> rows_results::Builder<'a> {
    pub fn init_rows(self, count: u32) -> struct_list::Builder<'a, row::Owned> {
        traits::FromPointerBuilder::init_pointer(self.0.get_pointer_field(0), count)
    }
}

impl<'a> store_params::Reader<'a> {
    pub fn get_rows(self) -> capnp::Result<Rows<'a>> {
        traits::FromPointerReader::get_from_pointer(&self.0.get_pointer_field(0), None)
    }
}

impl store_params::Builder<'_> {
    pub fn set_rows(&mut self, rows: Rows<'_>) -> capnp::Result<()> {
        traits::SetPointerBuilder::set_pointer_builder(self.0.get_pointer_field(0), rows, false)
    }
}

impl counter_results::Builder<'_> {
    pub fn set_counter(&mut self, counter: counter::Client) {
        self.0.get_pointer_field(0).set_capability(counter.client.hook)
    }
}

impl counter_results::Pipeline {
    pub fn get_counter(&self) -> counter::Client {
        counter::Client::new(self.0.get_pointer_field(0).as_cap())
    }
}

// An interface with its number, and its methods with their numbers, parameters and results.
macro_rules! interface {
    ($name:ident, $id:literal: $($number:literal $method:ident $request:ident
        $Params:ident $params:ident $Results:ident $results:ident;)+) => {
        pub mod $name {
            use super::*;

            const ID: u64 = $id;

            $(
                pub type $Params = Params<$params::Owned>;
                pub type $Results = Results<$results::Owned>;
            )+

            pub struct Client {
                pub client: capnp::capability::Client,
            }

            impl FromClientHook for Client {
                fn new(hook: Box<dyn ClientHook>) -> Self {
                    let client = capnp::capability::Client::new(hook);
                    Self { client }
                }
            }

            impl Clone for Client {
                fn clone(&self) -> Self {
                    Self::new(self.client.hook.add_ref())
                }
            }

            impl Client {
                $(pub fn $request(&self) -> Request<$params::Owned, $results::Owned> {
                    self.client.new_call(ID, $number, None)
                })+
            }

            pub trait Server {
                $(fn $method(
                    &mut self,
                    params: $Params,
                    results: $Results,
                ) -> Promise<(), Error>;)+
            }

            pub struct Dispatch<S>(S);

            impl<S> Deref for Dispatch<S> {
                type Target = S;

                fn deref(&self) -> &S {
                    &self.0
                }
            }

            impl<S> DerefMut for Dispatch<S> {
                fn deref_mut(&mut self) -> &mut S {
                    &mut self.0
                }
            }

            impl<S: Server + 'static> FromServer<S> for Client {
                type Dispatch = Dispatch<S>;

                fn from_server(server: S) -> Dispatch<S> {
                    Dispatch(server)
                }
            }

            impl<S: Server> capnp::capability::Server for Dispatch<S> {
                fn dispatch_call(
                    &mut self,
                    interface: u64,
                    method: u16,
                    params: Params<any_pointer::Owned>,
                    results: Results<any_pointer::Owned>,
                ) -> Promise<(), Error> {
                    match (interface, method) {
                        $((ID, $number) => self.0.$method(
                            internal_get_typed_params(params),
                            internal_get_typed_results(results),
                        ),)+
                        _ => Promise::err(Error::unimplemented("no such method".into())),
                    }
                }
            }
        }
    };
}

interface! { counter, 0x953c_0361_e013_46c9:
    0 next next_request NextParams nothing NextResults next_results;
}

interface! { calculator, 0xb21b_ebd0_1077_7756:
    0 add add_request AddParams add_params AddResults add_results;
    1 counter counter_request CounterParams counter_params CounterResults counter_results;
    2 rows rows_request RowsParams rows_params RowsResults rows_results;
    3 store store_request StoreParams store_params StoreResults store_results;
    4 fail fail_request FailParams nothing FailResults nothing;
}
