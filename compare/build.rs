//! Links libpollwezen.a and liblayout.a, which tools/staticlib writes, from the
//! folder in POLLWEZEN_LIB or from ../target/staticlib.

use std::env;
use std::path::{Path, PathBuf};

fn main() {
    let package = env::var("CARGO_MANIFEST_DIR").expect("cargo gives the package's folder");
    let folder = match env::var_os("POLLWEZEN_LIB") {
        Some(folder) => PathBuf::from(folder),
        None => Path::new(&package).join("../target/staticlib"),
    };
    println!("cargo:rustc-link-search=native={}", folder.display());
    for name in ["pollwezen", "layout"] {
        let library = folder.join(format!("lib{name}.a"));
        assert!(library.is_file(), "{} is missing: run tools/staticlib", library.display());
        println!("cargo:rustc-link-lib=static={name}");
        println!("cargo:rerun-if-changed={}", library.display());
    }
    println!("cargo:rerun-if-env-changed=POLLWEZEN_LIB");
}
