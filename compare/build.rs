//! Links what is at hand: PRETTY_DIR is the folder that build-crate prints, PURSEGABLE_ARCHIVE our static library's file.

use std::path::Path;

fn main() {
    println!("cargo:rustc-check-cfg=cfg(pretty)");
    println!("cargo:rustc-check-cfg=cfg(archive)");
    println!("cargo:rerun-if-env-changed=PRETTY_DIR");
    println!("cargo:rerun-if-env-changed=PURSEGABLE_ARCHIVE");
    if let Some(dir) = given("PRETTY_DIR") {
        println!("cargo:rustc-cfg=pretty");
        println!("cargo:rustc-link-search=crate={dir}");
        println!("cargo:rustc-link-search=dependency={dir}/deps");
        println!("cargo:rerun-if-changed={dir}/libpretty.rlib");
    }
    if let Some(file) = given("PURSEGABLE_ARCHIVE") {
        let path = Path::new(&file);
        let name = path.file_stem().and_then(|s| s.to_str()).and_then(|s| s.strip_prefix("lib")).expect("an archive lib*.a");
        println!("cargo:rustc-cfg=archive");
        println!("cargo:rustc-link-search=native={}", path.parent().expect("a folder").display());
        println!("cargo:rustc-link-lib=static={name}");
        println!("cargo:rerun-if-changed={file}");
    }
}

fn given(name: &str) -> Option<String> {
    std::env::var(name).ok().filter(|value| !value.is_empty())
}
