//! Links the static library. The script ../library makes it where it is missing or older than a
//! source of it; DESKROOK_FOLDER names another folder that has a libdeskrook.a.

use std::env;
use std::fs;
use std::path::Path;
use std::process::{Command, Stdio};

fn main() {
    let here = env::var("CARGO_MANIFEST_DIR").expect("cargo names the folder");
    let script = Path::new(&here).join("../library");
    println!("cargo:rerun-if-changed=build.rs");
    println!("cargo:rerun-if-env-changed=DESKROOK_FOLDER");
    println!("cargo:rerun-if-changed={}", script.display());
    let made = Command::new(&script).stderr(Stdio::inherit()).output().expect("the script runs");
    assert!(made.status.success(), "{} does not make the static library", script.display());
    let folder = String::from_utf8(made.stdout).expect("the folder's name is text");
    let folder = Path::new(folder.trim_end());
    // Without a folder given, a change of the library's sources means that it is to be made again. What rt
    // makes, crates/*/out, is no source.
    if env::var_os("DESKROOK_FOLDER").is_none() {
        let root = Path::new(&here).join("../..");
        println!("cargo:rerun-if-changed={}", root.join("crates.txt").display());
        for folder in fs::read_dir(root.join("crates")).expect("the crates") {
            let folder = folder.expect("a crate").path();
            for part in ["src", "specs", "proofs"].map(|part| folder.join(part)) {
                if part.is_dir() {
                    println!("cargo:rerun-if-changed={}", part.display());
                }
            }
        }
    }
    println!("cargo:rerun-if-changed={}", folder.join("libdeskrook.a").display());
    println!("cargo:rustc-link-search=native={}", folder.display());
    println!("cargo:rustc-link-lib=static=deskrook");
}
