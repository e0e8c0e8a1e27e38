//! Links the proved library that `rt lib` builds in crates/host.

use std::path::Path;

fn main() {
    let folder = Path::new(env!("CARGO_MANIFEST_DIR")).join("../../crates/host/out");
    let library = folder.join("libhost.a");
    println!("cargo::rustc-link-search=native={}", folder.display());
    println!("cargo::rerun-if-changed={}", library.display());
    if library.is_file() {
        println!("cargo::rustc-link-lib=static=host");
    } else {
        let wanted = "crates/host/out/libhost.a is missing";
        println!("cargo::error={wanted}; run `rt lib` in crates/host");
    }
}
