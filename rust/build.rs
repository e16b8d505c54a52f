//! Links the archive that `tools/archive` writes; `PURSEGABLE_LIB` names another folder to find it in, such as the `lib` of a
//! prefix that `tools/install` filled.

use std::path::PathBuf;
use std::{env, process};

fn main() {
    println!("cargo:rerun-if-env-changed=PURSEGABLE_LIB");
    let beside = PathBuf::from(env!("CARGO_MANIFEST_DIR")).join("../target/staticlib");
    let folder = env::var_os("PURSEGABLE_LIB").map_or(beside, PathBuf::from);
    let archive = folder.join("libpursegable.a");
    println!("cargo:rerun-if-changed={}", archive.display());
    if !archive.is_file() {
        eprintln!("there is no {}", archive.display());
        eprintln!("`tools/archive` proves the library and writes it; PURSEGABLE_LIB names another folder that has it");
        process::exit(1);
    }
    println!("cargo:rustc-link-search=native={}", folder.display());
    println!("cargo:rustc-link-lib=static=pursegable");
}
