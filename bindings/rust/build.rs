//! Links libmips86.a, which `tools/build library` writes to target/staticlib at the top of the repository. The
//! environment variable MIPS86_LIB names another directory that has it.

use std::env;
use std::path::PathBuf;

fn main() {
    println!("cargo:rerun-if-env-changed=MIPS86_LIB");
    let dir = match env::var_os("MIPS86_LIB") {
        Some(dir) => PathBuf::from(dir),
        None => PathBuf::from(env::var_os("CARGO_MANIFEST_DIR").expect("cargo names the package's directory"))
            .join("../../target/staticlib"),
    };
    let library = dir.join("libmips86.a");
    println!("cargo:rerun-if-changed={}", library.display());
    if !library.exists() {
        println!("cargo:warning={} is not there: run `tools/build library` first", library.display());
    }
    println!("cargo:rustc-link-search=native={}", dir.display());
    println!("cargo:rustc-link-lib=static=mips86");
}
