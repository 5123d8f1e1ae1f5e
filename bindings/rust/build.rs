//! Tells the linker where the static library is: in the folder that CHIEFTABLES_LIB names, or where `scripts/library` writes it.

use std::path::PathBuf;

fn main() {
    let home = PathBuf::from(std::env::var("CARGO_MANIFEST_DIR").expect("cargo sets it"));
    let folder = match std::env::var("CHIEFTABLES_LIB") {
        Ok(folder) => PathBuf::from(folder),
        Err(_) => home.join("../../target/staticlib"),
    };
    let library = folder.join("libchieftables.a");
    println!("cargo:rerun-if-env-changed=CHIEFTABLES_LIB");
    println!("cargo:rerun-if-changed={}", library.display());
    assert!(
        library.is_file(),
        "{} is missing: `scripts/library` makes it; CHIEFTABLES_LIB names another folder",
        library.display()
    );
    println!("cargo:rustc-link-search=native={}", folder.display());
    println!("cargo:rustc-link-lib=static=chieftables");
}
