//! The archive that the program is linked with, as build.rs found it. Cargo does not build a program again
//! whose target/ is a copy of another checkout's; so the program itself sees whether the archive is its own
//! checkout's, and still what was linked.

use crate::digest::sha256;
use std::env::{current_exe, var_os};
use std::fmt::{self, Display, Formatter};
use std::path::{Path, PathBuf};

/// An archive: where it is, and its digest.
#[derive(Clone, Debug, PartialEq)]
pub struct Archive {
    pub path: PathBuf,
    pub sha256: String,
}

/// Whether SIF_LIB_DIR named the archive when the program was built.
pub const IS_NAMED: bool = option_env!("SIF_ARCHIVE_IS_NAMED").is_some();

impl Archive {
    pub fn at(path: &Path) -> Result<Archive, String> {
        let sha256 = sha256(path)?;
        let path = path.canonicalize().map_err(|error| format!("{}: {error}", path.display()))?;
        Ok(Archive { path, sha256 })
    }
}

impl Display for Archive {
    fn fmt(&self, out: &mut Formatter<'_>) -> fmt::Result {
        write!(out, "{}, SHA-256 {}", self.path.display(), self.sha256)
    }
}

/// The archive that the program is linked with; or why it is not to be taken for that.
pub fn linked() -> Result<Archive, String> {
    let (Some(path), Some(sha256)) =
        (option_env!("SIF_ARCHIVE"), option_env!("SIF_ARCHIVE_SHA256"))
    else {
        return Err("the program is not linked with an archive".to_string());
    };
    let archive = Archive { path: PathBuf::from(path), sha256: sha256.to_string() };
    check(&archive, checkout().filter(|_| !IS_NAMED).as_deref())?;
    Ok(archive)
}

/// The line for reports on the archive that the program is linked with; or why there is to be no report.
pub fn told() -> Result<String, String> {
    if cfg!(feature = "stand-in") {
        return Ok("archive: none".to_string());
    }
    linked().map(|archive| format!("archive: {archive}"))
}

/// An archive must lie in a checkout, where one is given, and be what was linked.
fn check(archive: &Archive, checkout: Option<&Path>) -> Result<(), String> {
    let path = archive.path.display();
    if let Some(root) = checkout.filter(|root| !archive.path.starts_with(root)) {
        return Err(format!(
            "the program is linked with {path}, outside of the checkout {}: its target/ is that of \
             another checkout. Run `cargo clean --release -p compare` and build again, or name the \
             archive's folder by SIF_LIB_DIR",
            root.display()
        ));
    }
    if Archive::at(&archive.path)?.sha256 != archive.sha256 {
        return Err(format!("{path} has changed since it was linked: touch it and build again"));
    }
    Ok(())
}

/// The checkout that the program is run in: that of the package that cargo runs, else that of the program's
/// own file.
fn checkout() -> Option<PathBuf> {
    let package = var_os("CARGO_MANIFEST_DIR").map(PathBuf::from);
    let is_root = |folder: &&Path| folder.join("compare/build.rs").is_file();
    let places = [package, current_exe().ok()].into_iter().flatten();
    let mut roots = places.filter_map(|place| place.ancestors().find(is_root)?.canonicalize().ok());
    roots.next()
}

#[cfg(test)]
mod tests {
    use super::*;

    /// A file of the checkout, as an archive.
    fn some() -> Archive {
        let path = Path::new(env!("CARGO_MANIFEST_DIR")).join("build.rs");
        Archive::at(&path).expect("the file is there")
    }

    #[test]
    fn a_digest_is_that_of_sha256() {
        let empty = Archive::at(Path::new("/dev/null")).expect("it can be read");
        let digest = "e3b0c44298fc1c149afbf4c8996fb92427ae41e4649b934ca495991b7852b855";
        assert_eq!(empty.to_string(), format!("/dev/null, SHA-256 {digest}"));
        assert!(Archive::at(Path::new("/dev/null/none")).is_err());
    }

    #[test]
    fn an_archive_of_another_checkout_is_refused() {
        let archive = some();
        let root = checkout().expect("the test runs in a checkout");
        assert_eq!(check(&archive, Some(&root)), Ok(()));
        assert_eq!(check(&archive, None), Ok(()));
        let refused = check(&archive, Some(&root.join("hosts"))).expect_err("it lies elsewhere");
        assert!(refused.contains("outside of the checkout"), "{refused}");
    }

    #[test]
    fn a_changed_archive_is_refused() {
        let archive = Archive { sha256: "0".to_string(), ..some() };
        let refused = check(&archive, None).expect_err("it has another digest");
        assert!(refused.contains("has changed"), "{refused}");
    }

    #[test]
    fn the_linked_archive_is_the_checkouts() {
        let told = told().unwrap_or_else(|fault| panic!("{fault}"));
        assert!(told.starts_with("archive: "), "{told}");
    }
}
