//! Links the archive of the inner functions where the feature `probe` asks for it, from the folder in URAMSHEG_ARCHIVES, by default the repository's own.

use std::path::Path;

fn main() {
    println!("cargo:rerun-if-changed=build.rs");
    println!("cargo:rerun-if-env-changed=URAMSHEG_ARCHIVES");
    if std::env::var_os("CARGO_FEATURE_PROBE").is_none() {
        return;
    }
    let named = std::env::var_os("URAMSHEG_ARCHIVES").unwrap_or("../../target/staticlib".into());
    let folder = Path::new(env!("CARGO_MANIFEST_DIR")).join(named);
    let archive = folder.join("libprobe.a");
    assert!(
        archive.is_file(),
        "{} is absent: run `tests/staticlib probe`",
        archive.display()
    );
    println!("cargo:rerun-if-changed={}", archive.display());
    println!("cargo:rustc-link-search=native={}", folder.display());
    println!("cargo:rustc-link-lib=static=probe");
}
