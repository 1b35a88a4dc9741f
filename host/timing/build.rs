//! Says where `rt lib` in crates/tavvinur leaves the archive.

fn main() {
    let folder = concat!(env!("CARGO_MANIFEST_DIR"), "/../../crates/tavvinur/out");
    println!("cargo:rustc-link-search=native={}", folder);
    println!("cargo:rustc-link-lib=static=tavvinur");
    println!("cargo:rerun-if-changed={}/libtavvinur.a", folder);
}
