//! Links the proved library that `tools/make-library` writes. ZOLVORTUG_LIB names another folder that holds it.
use std::env;

fn main() {
    let here = env::var("CARGO_MANIFEST_DIR").expect("cargo sets it");
    let lib = env::var("ZOLVORTUG_LIB").unwrap_or(format!("{here}/../../target/staticlib"));
    println!("cargo:rustc-link-search=native={lib}");
    println!("cargo:rustc-link-lib=static=zolvortug");
    println!("cargo:rerun-if-changed={lib}/libzolvortug.a");
    println!("cargo:rerun-if-env-changed=ZOLVORTUG_LIB");
}
