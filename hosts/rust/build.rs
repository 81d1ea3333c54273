//! Links the static library of the proved code: that of the folder SIF_LIB_DIR where it is set (as the lib
//! folder of `make install`), else the repository's, which `make lib` builds where it is missing.

use std::env::var_os;
use std::path::{Path, PathBuf};
use std::process::Command;

fn main() {
    println!("cargo:rerun-if-env-changed=SIF_LIB_DIR");
    let folder = var_os("SIF_LIB_DIR").map_or_else(of_repository, PathBuf::from);
    let archive = folder.join("libsif_c.a");
    println!("cargo:rerun-if-changed={}", archive.display());
    assert!(archive.exists(), "{} is not there: run `make lib`", archive.display());
    println!("cargo:rustc-link-search=native={}", folder.display());
    println!("cargo:rustc-link-lib=static=sif_c");
}

/// The folder of the library in the repository, with the library in it.
fn of_repository() -> PathBuf {
    let root = Path::new(env!("CARGO_MANIFEST_DIR")).ancestors().nth(2);
    let root = root.expect("the package lies in the repository");
    let folder = root.join("target/staticlib");
    if !folder.join("libsif_c.a").exists() {
        let made = Command::new("make").arg("lib").current_dir(root).status();
        assert!(
            made.is_ok_and(|status| status.success()),
            "`make lib` failed in {}",
            root.display()
        );
    }
    folder
}
