//! Links libstripring.a from the directory that STRIPRING_LIB_DIR names.

use std::env;
use std::path::PathBuf;

fn main() {
    println!("cargo::rerun-if-env-changed=STRIPRING_LIB_DIR");
    let Ok(dir) = env::var("STRIPRING_LIB_DIR") else {
        panic!("STRIPRING_LIB_DIR does not name the directory of libstripring.a");
    };
    let library = PathBuf::from(&dir).join("libstripring.a");
    assert!(library.is_file(), "there is no {}", library.display());
    println!("cargo::rerun-if-changed={}", library.display());
    println!("cargo::rustc-link-search=native={dir}");
    println!("cargo::rustc-link-lib=static=stripring");
}
