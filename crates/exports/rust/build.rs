//! Links the static library that CORRECTOR_LIBRARY names: `rt lib` in crates/exports writes crates/exports/out/libexports.a.
use std::path::PathBuf;

fn main() {
    println!("cargo:rerun-if-env-changed=CORRECTOR_LIBRARY");
    let library = PathBuf::from(std::env::var_os("CORRECTOR_LIBRARY").expect("CORRECTOR_LIBRARY names the static library"));
    let folder = library.parent().expect("a file in a folder");
    let stem = library.file_stem().and_then(|stem| stem.to_str()).expect("a plain file name");
    let name = stem.strip_prefix("lib").expect("a file named lib*.a");
    println!("cargo:rerun-if-changed={}", library.display());
    println!("cargo:rustc-link-search=native={}", folder.display());
    println!("cargo:rustc-link-lib=static={name}");
}
