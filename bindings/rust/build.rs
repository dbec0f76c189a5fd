//! Links libmoorbesen.a, which `tools/library moorbesen` makes, from the directory named by MOORBESEN_LIB, else from
//! target/staticlib of this repository.

use std::path::Path;

fn main() {
    let here = Path::new(env!("CARGO_MANIFEST_DIR"));
    let directory =
        std::env::var_os("MOORBESEN_LIB").map_or_else(|| here.join("../../target/staticlib"), |named| named.into());
    let library = directory.join("libmoorbesen.a");
    println!("cargo:rerun-if-changed=build.rs");
    println!("cargo:rerun-if-env-changed=MOORBESEN_LIB");
    println!("cargo:rerun-if-changed={}", library.display());
    if !library.is_file() {
        eprintln!("there is no {}: run `tools/library moorbesen`", library.display());
        std::process::exit(1);
    }
    println!("cargo:rustc-link-search=native={}", directory.display());
    println!("cargo:rustc-link-lib=static=moorbesen");
}
