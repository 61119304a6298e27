//! Finds the rosenpass files, tests that they are unchanged and makes a module of each.
//! SHA256SUMS is the list of them; they are compiled where they lie and never copied.

use std::path::{Path, PathBuf};
use std::process::Command;
use std::{env, fs};

fn main() {
    let oracle = PathBuf::from(env::var("CARGO_MANIFEST_DIR").unwrap());
    let source = source_dir(&oracle);
    let sums = oracle.join("SHA256SUMS");
    println!("cargo::rerun-if-env-changed=ROSENPASS_SRC");
    println!("cargo::rerun-if-changed={}", sums.display());

    check_unchanged(&source, &sums);
    let modules: String = fs::read_to_string(&sums)
        .unwrap()
        .lines()
        .map(|line| module(&source, line))
        .collect();
    let out = PathBuf::from(env::var("OUT_DIR").unwrap());
    fs::write(out.join("rosenpass.rs"), modules).unwrap();

    if env::var("CARGO_FEATURE_JUDGE").is_ok() {
        link_stripring(&oracle);
    }
}

/// Where the rosenpass files lie: as the caller says, else beside the checkout.
fn source_dir(oracle: &Path) -> PathBuf {
    let beside = oracle.join("../../shared/docs/src");
    let source = env::var("ROSENPASS_SRC").map_or(beside, PathBuf::from);
    source
        .canonicalize()
        .unwrap_or_else(|e| panic!("no rosenpass files at {}: {e}", source.display()))
}

fn check_unchanged(source: &Path, sums: &Path) {
    let unchanged = Command::new("sha256sum")
        .args(["--check", "--quiet", "--strict"])
        .arg(sums)
        .current_dir(source)
        .status()
        .expect("sha256sum");
    assert!(
        unchanged.success(),
        "a rosenpass file is not the one of SHA256SUMS"
    );
}

/// `pub mod NAME;` for the file of one line of SHA256SUMS. receiver.rs is included by a module of
/// its name instead, among stand-ins for the crates that it uses.
fn module(source: &Path, line: &str) -> String {
    let (_, file) = line.split_once("  ").expect("SUM  FILE");
    let path = source.join(file);
    println!("cargo::rerun-if-changed={}", path.display());
    match path.file_stem().unwrap().to_str().unwrap() {
        "receiver" => {
            println!("cargo::rustc-env=ROSENPASS_RECEIVER={}", path.display());
            String::new()
        }
        name => format!("#[path = {path:?}]\npub mod {name};\n"),
    }
}

fn link_stripring(oracle: &Path) {
    let dir = oracle.join("../target/staticlib");
    println!(
        "cargo::rerun-if-changed={}",
        dir.join("libstripring.a").display()
    );
    println!("cargo::rustc-link-search=native={}", dir.display());
    println!("cargo::rustc-link-lib=static=stripring");
}
