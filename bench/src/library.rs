//! The calls of archives that are loaded while the program runs. Each is linked into a shared object, as
//! hosts have it: so two archives with calls of the same names can be loaded, and both are called alike.

use compare::host::Calls;
use std::ffi::{c_char, c_int, c_void, CStr, CString};
use std::fs;
use std::os::unix::ffi::OsStrExt;
use std::path::{Path, PathBuf};
use std::process::Command;

/// The calls that a shared object exports. All other names of an archive stay its own.
const EXPORTS: &str = include_str!("../../hosts/c/exports.map");

/// RTLD_NOW; RTLD_LOCAL is 0.
const MODE: c_int = 2;

extern "C" {
    fn dlopen(file: *const c_char, mode: c_int) -> *mut c_void;
    fn dlsym(object: *mut c_void, name: *const c_char) -> *mut c_void;
    fn dlerror() -> *const c_char;
}

/// Loads two archives, which stay loaded until the program ends.
pub fn load(archives: [&Path; 2]) -> Result<[Calls; 2], String> {
    let folder = std::env::temp_dir().join(format!("bench-{}", std::process::id()));
    fs::create_dir(&folder).map_err(|error| format!("{}: {error}", folder.display()))?;
    let loaded = load_by(archives, &folder);
    let _ = fs::remove_dir_all(&folder);
    loaded
}

/// The same with a folder for the shared objects. It has to stay until both are loaded: a file that takes the
/// name or the place of a loaded one would be taken for that.
fn load_by(archives: [&Path; 2], folder: &Path) -> Result<[Calls; 2], String> {
    fs::write(folder.join("exports.map"), EXPORTS).map_err(|error| error.to_string())?;
    let load = |archive: &Path, name: &str| {
        let loaded = link(archive, folder, name).and_then(|object| open(&object));
        loaded.map_err(|fault| format!("{} cannot be loaded: {fault}", archive.display()))
    };
    Ok([load(archives[0], "ours.so")?, load(archives[1], "other.so")?])
}

/// Links an archive into a shared object, as the Makefile does.
fn link(archive: &Path, folder: &Path, name: &str) -> Result<PathBuf, String> {
    let object = folder.join(name);
    let linker = std::env::var_os("CC").unwrap_or_else(|| "cc".into());
    let run = Command::new(linker)
        .args(["-shared", "-Wl,--whole-archive"])
        .arg(archive)
        .args(["-Wl,--no-whole-archive", "-Wl,-z,defs", "-Wl,-z,relro,-z,now"])
        .args(["-Wl,--version-script=exports.map", "-o"])
        .arg(&object)
        .current_dir(folder)
        .output()
        .map_err(|error| format!("the C compiler cannot be run: {error}"))?;
    if run.status.success() {
        return Ok(object);
    }
    Err(String::from_utf8_lossy(&run.stderr).trim().to_string())
}

/// Opens a shared object, and finds the calls in it.
fn open(object: &Path) -> Result<Calls, String> {
    let file = CString::new(object.as_os_str().as_bytes()).map_err(|error| error.to_string())?;
    // SAFETY: the name ends in 0. What runs when an archive of ours is loaded is what `cc` puts there.
    let handle = found(unsafe { dlopen(file.as_ptr(), MODE) })?;
    let mut addresses = [std::ptr::null(); 3];
    for (address, name) in addresses.iter_mut().zip(Calls::NAMES) {
        // SAFETY: the object is open, and the name ends in 0.
        *address = found(unsafe { dlsym(handle, name.as_ptr()) })?;
    }
    // SAFETY: they are found by these names, and the object is never closed.
    Ok(unsafe { Calls::at(addresses) })
}

/// What a call of the loader found, or what it says.
fn found(pointer: *mut c_void) -> Result<*mut c_void, String> {
    if !pointer.is_null() {
        return Ok(pointer);
    }
    // SAFETY: after a failure the loader's message is there, and it ends in 0.
    let told = unsafe { CStr::from_ptr(dlerror()) };
    Err(told.to_string_lossy().into_owned())
}
