//! Links the static library that `bindings/build` writes, and hands on what its header defines.

use std::path::Path;

fn main() {
    let package = std::env::var("CARGO_MANIFEST_DIR").expect("cargo sets it");
    let folder = Path::new(&package).join("../../target/staticlib");
    println!("cargo::rerun-if-changed={}", folder.join("libyewdome.a").display());
    println!("cargo::rustc-link-search=native={}", folder.display());
    println!("cargo::rustc-link-lib=static=yewdome");
    let header = Path::new(&package).join("../../bindings/c/yewdome.h");
    println!("cargo::rerun-if-changed={}", header.display());
    let header = std::fs::read_to_string(&header).expect("the header is there");
    for define in header.lines().filter_map(|line| line.strip_prefix("#define ")) {
        if let Some((name, value)) = define.split_once(' ') {
            println!("cargo::rustc-env={name}={value}");
        }
    }
}
