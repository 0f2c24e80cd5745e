//! Tells the linker where `rt lib` writes the library.
fn main() {
    let root = concat!(env!("CARGO_MANIFEST_DIR"), "/../..");
    println!("cargo:rustc-link-search=native={root}/crates/ffi/out");
    println!("cargo:rerun-if-changed={root}/crates/ffi/out/libffi.a");
}
