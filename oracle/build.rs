//! Builds the Rust original, unchanged, as the two crates that it is: refal_ast and refal_semantics.
//!
//! Its sources come without a manifest and lie outside this repository, so rustc is called on them directly. ORACLE_SRC
//! names their folder, from the repository's root; by itself it is ../shared/docs/src.
use std::env;
use std::path::{Path, PathBuf};
use std::process::Command;

fn main() {
    let root = PathBuf::from(variable("CARGO_MANIFEST_DIR")).join("..");
    let named = env::var("ORACLE_SRC").unwrap_or_else(|_| "../shared/docs/src".into());
    let crates = root.join(named).join("crates");
    let made = PathBuf::from(variable("OUT_DIR"));

    build(&crates, "refal-ast", &[], &made);
    build(&crates, "refal-semantics", &["--extern=refal_ast"], &made);

    println!("cargo:rerun-if-env-changed=ORACLE_SRC");
    println!("cargo:rustc-link-search=all={}", made.display());
}

/// The sources use let chains, so their edition is 2024.
fn build(crates: &Path, package: &str, uses: &[&str], made: &Path) {
    let folder = crates.join(package).join("src");
    let source = folder.join("lib.rs");
    assert!(
        source.is_file(),
        "{} is not there: set ORACLE_SRC to the folder of the Rust original",
        source.display()
    );
    let built = Command::new(variable("RUSTC"))
        .args(["--edition=2024", "--crate-type=rlib", "--cap-lints=allow"])
        .args(uses)
        .arg(format!("--crate-name={}", package.replace('-', "_")))
        .arg(format!("--target={}", variable("TARGET")))
        .arg(format!("-Copt-level={}", variable("OPT_LEVEL")))
        .arg("-L")
        .arg(made)
        .arg("--out-dir")
        .arg(made)
        .arg(&source)
        .status()
        .expect("rustc starts");
    assert!(built.success(), "{} does not build", source.display());
    println!("cargo:rerun-if-changed={}", folder.display());
}

fn variable(name: &str) -> String {
    env::var(name).unwrap_or_else(|_| panic!("cargo sets {name}"))
}
