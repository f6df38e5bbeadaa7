// Links the C library that `./belikumba lib` leaves in target/host, or the one in the folder that BELIKUMBA_LIBRARY
// names, for a program that asks for the feature `library`.

use std::path::{Path, PathBuf};

fn main() {
    if std::env::var_os("CARGO_FEATURE_LIBRARY").is_none() {
        return;
    }
    println!("cargo:rerun-if-env-changed=BELIKUMBA_LIBRARY");
    let folder = match std::env::var_os("BELIKUMBA_LIBRARY") {
        Some(folder) => PathBuf::from(folder),
        None => Path::new(env!("CARGO_MANIFEST_DIR")).join("../../target/host"),
    };
    let library = folder.join("libbelikumba.a");
    assert!(library.exists(), "{} is missing: run ./belikumba lib", library.display());
    println!("cargo:rerun-if-changed={}", library.display());
    println!("cargo:rustc-link-search=native={}", folder.display());
    println!("cargo:rustc-link-lib=static=belikumba");
}
