//! Links the static library of the proved code: that of the folder SIF_LIB_DIR where it is set, else that of
//! the checkout that is built, which `make lib` writes. One that lies outside of the checkout is
//! refused, unless SIF_LIB_DIR names it. src/archive.rs gets its place and its digest.

#[path = "src/digest.rs"]
mod digest;

use std::env::var_os;
use std::path::{Path, PathBuf};

/// The archive, as the package sees it: cargo looks for it in the checkout that is built, also where target/
/// is a copy of another checkout's.
const ARCHIVE: &str = "../target/staticlib/libsif_c.a";

fn main() {
    if var_os("CARGO_FEATURE_STAND_IN").is_some() {
        return;
    }
    println!("cargo:rerun-if-env-changed=SIF_LIB_DIR");
    // Not `env!`: a copied build script has the package that it was compiled for.
    let package = PathBuf::from(var_os("CARGO_MANIFEST_DIR").expect("cargo names the package"));
    let root = package.parent().expect("the package lies in the repository");
    let named = var_os("SIF_LIB_DIR").map(|folder| package.join(folder).join("libsif_c.a"));
    let is_named = named.is_some();
    let watched = named.clone().unwrap_or_else(|| PathBuf::from(ARCHIVE));
    println!("cargo:rerun-if-changed={}", watched.display());
    let archive = named.unwrap_or_else(|| root.join("target/staticlib/libsif_c.a"));
    if archive.exists() {
        tell(&archive, (!is_named).then_some(root));
    } else {
        let archive = archive.display();
        println!("cargo:warning={archive} is not there: run `make lib` first");
    }
    let folder = archive.parent().expect("the archive lies in a folder");
    println!("cargo:rustc-link-search=native={}", folder.display());
    println!("cargo:rustc-link-lib=static=sif_c");
}

/// Hands on where the archive is and its digest. It must lie below a folder, where one is given.
fn tell(archive: &Path, below: Option<&Path>) {
    let place = archive.canonicalize().expect("the archive has a place");
    match below.map(|root| root.canonicalize().expect("the checkout has a place")) {
        Some(root) => assert!(
            place.starts_with(&root),
            "{} lies outside of the checkout {}: put the checkout's own in its place (`make lib`), or \
             name the folder by SIF_LIB_DIR",
            place.display(),
            root.display()
        ),
        None => println!("cargo:rustc-env=SIF_ARCHIVE_IS_NAMED=yes"),
    }
    let sha256 = digest::sha256(&place).unwrap_or_else(|fault| panic!("{fault}"));
    println!("cargo:rustc-env=SIF_ARCHIVE={}", place.display());
    println!("cargo:rustc-env=SIF_ARCHIVE_SHA256={sha256}");
}
