//! Names the shared library by the major version of its header, so that a program loads no other.

use std::env;

fn main() {
    println!("cargo:rerun-if-changed=build.rs");
    // (a DLL has the name of its file)
    if env::var_os("CARGO_CFG_UNIX").is_none() {
        return;
    }
    let major = env::var("CARGO_PKG_VERSION_MAJOR").unwrap();
    let name = match env::var("CARGO_CFG_TARGET_VENDOR").as_deref() {
        Ok("apple") => format!("-install_name,@rpath/libcapvet.{major}.dylib"),
        _ => format!("-soname,libcapvet.so.{major}"),
    };
    println!("cargo:rustc-cdylib-link-arg=-Wl,{name}");
}
