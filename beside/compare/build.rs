//! Links the proved static library libexports.a with the judge, the reader and
//! the writer, from the folder that CODEC_LIBRARIES names, or target/staticlib
//! of this repository.

use std::env;
use std::path::PathBuf;

fn main() {
    let here = PathBuf::from(env::var_os("CARGO_MANIFEST_DIR").expect("cargo sets it"));
    let folder = match env::var_os("CODEC_LIBRARIES") {
        Some(named) => PathBuf::from(named),
        None => here.join("../../target/staticlib"),
    };
    println!("cargo:rerun-if-env-changed=CODEC_LIBRARIES");
    println!("cargo:rustc-link-search=native={}", folder.display());
    let library = folder.join("libexports.a");
    if !library.is_file() {
        panic!(
            "{} is missing: ./play and ./test build it",
            library.display()
        );
    }
    println!("cargo:rerun-if-changed={}", library.display());
    println!("cargo:rustc-link-lib=static=exports");
}
