//! Links the library of the folder that TADLOVIMPE_LIB names, or that `bindings/build` writes to.

use std::env::{var, var_os};
use std::path::PathBuf;

fn main() {
    let (kind, file) = match var_os("CARGO_FEATURE_SHARED") {
        None => ("static", "libtadlovimpe.a"),
        Some(_) => ("dylib", "libtadlovimpe.so"),
    };
    let folder = match var("TADLOVIMPE_LIB") {
        Ok(folder) if !folder.is_empty() => PathBuf::from(folder),
        _ => PathBuf::from(var("CARGO_MANIFEST_DIR").unwrap()).join("../../target/staticlib"),
    };
    let library = folder.join(file);
    assert!(
        library.is_file(),
        "no {}: run bindings/build, or name its folder by TADLOVIMPE_LIB, by an absolute path",
        library.display()
    );
    println!("cargo:rustc-link-search=native={}", folder.display());
    println!("cargo:rustc-link-lib={kind}=tadlovimpe");
    println!("cargo:rerun-if-changed={}", library.display());
    println!("cargo:rerun-if-changed=build.rs");
    println!("cargo:rerun-if-env-changed=TADLOVIMPE_LIB");
}
