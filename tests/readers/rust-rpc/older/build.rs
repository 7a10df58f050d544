//! What build.rs of examples/rust/rpc is for `capnp` 0.14: it takes the code that is written by hand.

use std::{env, fs};

fn main() {
    let out = env::var("OUT_DIR").expect("a folder");
    fs::copy("calculator_capnp.rs", out + "/calculator_capnp.rs").expect("it is copied");
}
