//! Links the library that tools/build-library writes; PURPLE_GARDEN_LIBRARY names another folder that has it.
use std::path::PathBuf;

fn main() {
    let folder = match std::env::var_os("PURPLE_GARDEN_LIBRARY") {
        Some(folder) => PathBuf::from(folder),
        None => PathBuf::from(env!("CARGO_MANIFEST_DIR")).join("../../target/staticlib"),
    };
    let library = folder.join("libc_api.a");
    assert!(library.exists(), "{} is missing: run tools/build-library first", library.display());
    println!("cargo:rerun-if-env-changed=PURPLE_GARDEN_LIBRARY");
    println!("cargo:rerun-if-changed={}", library.display());
    println!("cargo:rustc-link-search=native={}", folder.display());
    println!("cargo:rustc-link-lib=static=c_api");
}
