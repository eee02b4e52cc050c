//! Finds libbilzarko.a: in the folder that BILZARKO_LIB_DIR names, or in ../target/staticlib, where
//! `tools/staticlib.sh` writes it.
use std::env;
use std::path::PathBuf;

fn main() {
    let folder = match env::var_os("BILZARKO_LIB_DIR") {
        Some(named) => PathBuf::from(named),
        None => {
            PathBuf::from(env::var_os("CARGO_MANIFEST_DIR").expect("cargo sets CARGO_MANIFEST_DIR"))
                .join("../target/staticlib")
        }
    };
    let archive = folder.join("libbilzarko.a");
    assert!(
        archive.is_file(),
        "{} is not there: run `tools/staticlib.sh` at the repository's root, or set BILZARKO_LIB_DIR",
        archive.display()
    );
    println!("cargo:rerun-if-env-changed=BILZARKO_LIB_DIR");
    println!("cargo:rerun-if-changed={}", archive.display());
    println!("cargo:rustc-link-search=native={}", folder.display());
    println!("cargo:rustc-link-lib=static=bilzarko");
}
