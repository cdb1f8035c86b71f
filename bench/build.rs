//! With the feature `library` the library of the bound test is linked, which `embed/library probe` at the
//! repository's root makes (DESKROOK_FOLDER names another folder); with `sqlite` the system's SQLite.

use std::env;
use std::path::{Path, PathBuf};

fn main() {
    println!("cargo:rerun-if-changed=build.rs");
    println!("cargo:rerun-if-env-changed=DESKROOK_FOLDER");
    if env::var_os("CARGO_FEATURE_LIBRARY").is_some() {
        let here = env::var("CARGO_MANIFEST_DIR").expect("cargo names the folder");
        let folder: PathBuf = match env::var_os("DESKROOK_FOLDER") {
            Some(folder) => folder.into(),
            None => Path::new(&here).join("../target/staticlib"),
        };
        println!("cargo:rerun-if-changed={}", folder.join("libprobe.a").display());
        println!("cargo:rustc-link-search=native={}", folder.display());
        println!("cargo:rustc-link-lib=static=probe");
    }
    if env::var_os("CARGO_FEATURE_SQLITE").is_some() {
        println!("cargo:rustc-link-lib=sqlite3");
    }
}
