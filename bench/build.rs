//! Links the static library that `tools/build` lays there.

fn main() {
    let here = std::env::var("CARGO_MANIFEST_DIR").expect("cargo sets it");
    println!("cargo:rustc-link-search=native={here}/../target/staticlib");
    println!("cargo:rustc-link-lib=static=sledkindle");
    println!("cargo:rerun-if-changed=../target/staticlib/libsledkindle.a");
}
