//! Links lib/libbandsawpink.a of the repository, which its script `build` makes.

use std::path::Path;

fn main() {
    let folder = Path::new(env!("CARGO_MANIFEST_DIR")).join("../../lib");
    let library = folder.join("libbandsawpink.a");
    println!("cargo:rerun-if-changed={}", library.display());
    assert!(library.exists(), "{} is not there: run ./build in the repository first", library.display());
    println!("cargo:rustc-link-search=native={}", folder.display());
    println!("cargo:rustc-link-lib=static=bandsawpink");
}
