//! Links the static library, which `hosts/library` makes in the repository's `target/hosts/lib`; the environment variable
//! `BAYBOARD_LIB_DIR` names another folder. Whether it is a library of this package's version is asked when the first board is made.
use std::env;
use std::path::{absolute, PathBuf};

const FOLDER: &str = "BAYBOARD_LIB_DIR";

fn main() {
    let package = PathBuf::from(env::var_os("CARGO_MANIFEST_DIR").expect("cargo sets it"));
    let named = env::var_os(FOLDER).filter(|name| !name.is_empty());
    let folder = named.map_or(package.join("../../target/hosts/lib"), PathBuf::from);
    let folder = absolute(folder).expect("a path that isn't empty");
    let archive = folder.join("libbayboard.a");
    assert!(
        archive.exists(),
        "{} is missing: `hosts/library` makes it in the repository, and {FOLDER} may name its folder",
        archive.display()
    );
    println!("cargo:rerun-if-env-changed={FOLDER}");
    println!("cargo:rerun-if-changed={}", archive.display());
    println!("cargo:rustc-link-search=native={}", folder.display());
    println!("cargo:rustc-link-lib=static=bayboard");
}
