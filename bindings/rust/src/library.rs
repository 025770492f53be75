//! The version of the library.

use spki_sys as sys;
use std::ffi::CStr;
use std::sync::Once;

/// The version of the library that is linked, such as `0.2.0`.
#[must_use]
pub fn library_version() -> &'static str {
    // SAFETY: the call takes nothing and returns a text that lasts as long as the program.
    let version = unsafe { CStr::from_ptr(sys::spki_version()) };
    version.to_str().unwrap_or_default()
}

/// Ensures that the library is of a version that has the calls of this crate: a shared library may be another than at the build. The version is
/// compared once. `Guard::read` and the functions on texts call this first, and each other call but that for the version needs a guard.
///
/// # Panics
///
/// If the library is of another version: the program runs with another shared library than it was built for.
pub(crate) fn check_version() {
    static CHECKED: Once = Once::new();
    CHECKED.call_once(|| {
        // (`sys::VERSION` has only the first two numbers, such as `0.2`)
        let (version, wanted) = (library_version(), sys::VERSION);
        let is_wanted = version
            .strip_prefix(wanted)
            .is_some_and(|rest| rest.starts_with('.'));
        assert!(
            is_wanted,
            "libspki_c has version {version}, and this crate needs {wanted}"
        );
    });
}
