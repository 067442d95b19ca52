//! Links libserver.a from the folder named by CEZHAPPU_LIB.

use std::path::PathBuf;

fn main() {
    println!("cargo:rerun-if-changed=build.rs");
    println!("cargo:rerun-if-env-changed=CEZHAPPU_LIB");

    let folder = std::env::var_os("CEZHAPPU_LIB").expect("set CEZHAPPU_LIB to the folder that holds libserver.a");
    let folder = PathBuf::from(folder);
    assert!(folder.is_absolute(), "CEZHAPPU_LIB must be an absolute path");

    let library = folder.join("libserver.a");
    println!("cargo:rerun-if-changed={}", library.display());
    assert!(library.is_file(), "there is no {}", library.display());
    println!("cargo:rustc-link-search=native={}", folder.display());
    println!("cargo:rustc-link-lib=static=server");
}
