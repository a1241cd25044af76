//! Finds the static library: in the folder that UNION_FFI_DIR names, else where `bindings/library` writes it.

use std::env;
use std::path::{Path, PathBuf};

const VARIABLE: &str = "UNION_FFI_DIR";

fn folder() -> PathBuf {
    match env::var_os(VARIABLE) {
        Some(folder) => PathBuf::from(folder),
        None => Path::new(env!("CARGO_MANIFEST_DIR")).join("../../target/staticlib"),
    }
}

fn main() {
    let folder = folder();
    let library = folder.join("libunion_ffi.a");
    println!("cargo::rerun-if-env-changed={VARIABLE}");
    println!("cargo::rerun-if-changed={}", library.display());
    if env::var("CARGO_CFG_TARGET_ARCH").as_deref() != Ok("x86_64") {
        println!("cargo::error=libunion_ffi.a is made for x86-64 alone");
    } else if !library.is_file() {
        println!("cargo::error=there is no {}", library.display());
        println!(
            "cargo::error=make it by `bindings/library` in the repository, or name its folder in {VARIABLE}"
        );
    } else {
        println!("cargo::rustc-link-search=native={}", folder.display());
        println!("cargo::rustc-link-lib=static=union_ffi");
    }
}
