//! Links the archives that the features name, from the folder in URAMSHEG_ARCHIVES, by default the repository's own.

use std::path::Path;

fn link(feature: &str, name: &str) {
    if std::env::var_os(format!("CARGO_FEATURE_{feature}")).is_none() {
        return;
    }
    let named = std::env::var_os("URAMSHEG_ARCHIVES").unwrap_or("../../target/staticlib".into());
    let folder = Path::new(env!("CARGO_MANIFEST_DIR")).join(named);
    let archive = folder.join(format!("lib{name}.a"));
    assert!(
        archive.is_file(),
        "{} is absent: run `tests/staticlib {name}`, or set URAMSHEG_ARCHIVES to its folder",
        archive.display()
    );
    println!("cargo:rerun-if-changed={}", archive.display());
    println!("cargo:rustc-link-search=native={}", folder.display());
    println!("cargo:rustc-link-lib=static={name}");
}

fn main() {
    println!("cargo:rerun-if-changed=build.rs");
    println!("cargo:rerun-if-env-changed=URAMSHEG_ARCHIVES");
    link("DETECTOR", "alp_c");
    link("FLOAT", "float_c");
}
