//! Links the static library that `bindings/build` writes.

use std::path::Path;

/// Names another folder that holds the library. One that is not absolute is taken from the folder
/// of this package.
const FOLDER: &str = "YEWDOME_LIBRARY";

fn main() {
    let package = std::env::var("CARGO_MANIFEST_DIR").expect("cargo sets it");
    let folder = std::env::var(FOLDER).unwrap_or_else(|_| "../../target/staticlib".to_string());
    let folder = Path::new(&package).join(folder);
    let library = folder.join("libyewdome.a");
    println!("cargo:rerun-if-env-changed={FOLDER}");
    println!("cargo:rerun-if-changed={}", library.display());
    if !library.is_file() {
        // `cargo check` and `cargo doc` link nothing, and go on without it
        println!(
            "cargo:warning={} is not there, and nothing can be linked without it: \
             `bindings/build`, in Yewdome, builds it; {FOLDER} may name another folder that holds it",
            library.display()
        );
    }
    println!("cargo:rustc-link-search=native={}", folder.display());
    println!("cargo:rustc-link-lib=static=yewdome");
}
