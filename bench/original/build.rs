//! Copies the published files byte for byte, and the stand-ins around them from `oracle/`, whose own driver of 000 is left
//! out for `life.rs`.
use std::path::{Path, PathBuf};
use std::{env, fs, process};

const PUBLISHED: [(&str, &str); 3] = [
    ("src/backend/kmod/ehci/mod.rs", "ehci.rs"),
    ("src/backend/ty/ep/mod.rs", "ep.rs"),
    ("src/backend/ty/transfer.rs", "transfer.rs"),
];

/// What begins the module of 000 in the oracle's `backend.rs`.
const OWN: &str = "    pub mod ehci {";

fn main() {
    let here = PathBuf::from(env::var("CARGO_MANIFEST_DIR").unwrap());
    let oracle = here.join("../../oracle/src");
    let original = match env::var_os("ORIGINAL") {
        Some(path) => PathBuf::from(path),
        None => here.join("../../../shared/docs/src"),
    };
    let out = PathBuf::from(env::var("OUT_DIR").unwrap());
    println!("cargo:rerun-if-env-changed=ORIGINAL");
    println!("cargo:rustc-cfg=kmod");
    for (from, to) in PUBLISHED {
        fs::write(out.join(to), read(&original.join(from))).unwrap();
    }
    for name in ["ctrl.rs", "err.rs"] {
        fs::write(out.join(name), included(&oracle.join(name))).unwrap();
    }
    let backend = included(&oracle.join("backend.rs"));
    let (around, _) = backend.split_once(OWN).expect("the module of 000 in oracle/src/backend.rs");
    let life = here.join("src/life.rs");
    println!("cargo:rerun-if-changed={}", life.display());
    let own = format!(
        "{OWN}\n        include!(concat!(env!(\"OUT_DIR\"), \"/ehci.rs\"));\n\n        pub mod life {{\n            include!({life:?});\n        }}\n    }}\n}}\n"
    );
    fs::write(out.join("backend.rs"), around.to_string() + &own).unwrap();
}

/// The text of a file without what cannot be included: inner attributes and inner comments.
fn included(path: &Path) -> String {
    let text = String::from_utf8(read(path)).unwrap();
    let inner = |line: &&str| !line.starts_with("//!") && !line.starts_with("#![");
    text.lines().filter(inner).flat_map(|line| [line, "\n"]).collect()
}

fn read(path: &Path) -> Vec<u8> {
    println!("cargo:rerun-if-changed={}", path.display());
    fs::read(path).unwrap_or_else(|error| {
        eprintln!("\n{} cannot be read: {error}. ORIGINAL names the folder that holds the published src/.\n", path.display());
        process::exit(1)
    })
}
