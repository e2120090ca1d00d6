//! Copies the published files byte for byte to where `include!` finds them. Nothing is edited.
use std::path::{Path, PathBuf};
use std::{env, fs, process};

const FILES: [(&str, &str); 3] = [
    ("src/backend/kmod/ehci/mod.rs", "ehci.rs"),
    ("src/backend/ty/ep/mod.rs", "ep.rs"),
    ("src/backend/ty/transfer.rs", "transfer.rs"),
];

fn main() {
    let here = PathBuf::from(env::var("CARGO_MANIFEST_DIR").unwrap());
    let original = match env::var_os("ORIGINAL") {
        Some(path) => PathBuf::from(path),
        None => here.join("../../shared/docs/src"),
    };
    let out = PathBuf::from(env::var("OUT_DIR").unwrap());
    println!("cargo:rerun-if-env-changed=ORIGINAL");
    println!("cargo:rustc-cfg=kmod");
    for (from, to) in FILES {
        copy(&original.join(from), &out.join(to));
    }
    // `mod ctrl;` of the published ep.rs looks for this file beside it.
    copy(&here.join("src/ctrl.rs"), &out.join("ctrl.rs"));
}

fn copy(from: &Path, to: &Path) {
    println!("cargo:rerun-if-changed={}", from.display());
    let Ok(bytes) = fs::read(from) else {
        eprintln!(
            "\nThe published Rust is not at hand: {} cannot be read.\n\
             Set ORIGINAL to the folder that holds its src/ (as docs/src of the shared documents).\n",
            from.display()
        );
        process::exit(1);
    };
    fs::write(to, &bytes).unwrap();
    assert_eq!(fs::read(to).unwrap(), bytes);
}
