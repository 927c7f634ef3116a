//! With the feature `library`: links the static library that `c/library` writes.

use std::path::Path;

fn main() {
    if std::env::var_os("CARGO_FEATURE_LIBRARY").is_none() {
        return;
    }
    let top = std::env::var("CARGO_MANIFEST_DIR").expect("cargo names the package's folder");
    let folder = Path::new(&top).join("../target/staticlib");
    println!("cargo:rustc-link-search=native={}", folder.display());
    println!("cargo:rustc-link-lib=static=pageoriole");
    println!("cargo:rerun-if-changed={}", folder.join("libpageoriole.a").display());
}
