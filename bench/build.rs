//! Links the static library that `rt lib` makes in crates/measured.

use std::path::Path;

fn main() {
    let folder = Path::new(env!("CARGO_MANIFEST_DIR")).join("../crates/measured/out");
    println!("cargo::rustc-link-search=native={}", folder.display());
    println!("cargo::rustc-link-lib=static=measured");
    println!("cargo::rerun-if-changed={}", folder.join("libmeasured.a").display());
}
