//! Links the static library that `tools/build.sh tomchoen` wrote.

use std::path::Path;

fn main() {
    let library = Path::new(env!("CARGO_MANIFEST_DIR")).join("../../target/staticlib");
    println!("cargo:rustc-link-search=native={}", library.display());
    println!("cargo:rustc-link-lib=static=tomchoen");
    println!("cargo:rerun-if-changed={}", library.join("libtomchoen.a").display());
}
