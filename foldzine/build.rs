//! Links the static library that `rt lib` writes in crates/export.

use std::path::Path;

fn main() {
    let root = Path::new(env!("CARGO_MANIFEST_DIR")).parent().expect("the repository");
    let library = root.join("crates/export/out");
    assert!(library.join("libexport.a").exists(), "first run rt lib in crates/export");
    println!("cargo:rerun-if-changed={}", library.join("libexport.a").display());
    println!("cargo:rustc-link-search=native={}", library.display());
    println!("cargo:rustc-link-lib=static=export");
}
