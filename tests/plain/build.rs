//! Where the proved library is.

fn main() {
    println!("cargo:rerun-if-env-changed=CAPVET_LIB_DIR");
    if std::env::var_os("CARGO_FEATURE_PROVED").is_some() {
        let folder = std::env::var("CAPVET_LIB_DIR").expect("CAPVET_LIB_DIR is the folder of libcapvet.a");
        println!("cargo:rerun-if-changed={folder}/libcapvet.a");
        println!("cargo:rustc-link-search=native={folder}");
        println!("cargo:rustc-link-lib=static=capvet");
    }
}
