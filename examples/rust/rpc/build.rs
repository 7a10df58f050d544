//! Generates the code of the interface.

fn main() {
    capnpc::CompilerCommand::new()
        .src_prefix("../../cpp")
        .file("../../cpp/calculator.capnp")
        .run()
        .expect("the schema is compiled");
}
