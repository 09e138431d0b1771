//! Which version the library is.

use crate::sys;

/// The version of the library that is linked: its three parts. It is this crate's, unless another library is linked
/// than the one that came with it.
///
/// ```
/// let (major, minor, patch) = jilqamur::version();
/// assert_eq!(format!("{major}.{minor}.{patch}"), "0.10.0");
/// ```
#[must_use]
pub fn version() -> (u32, u32, u32) {
    // SAFETY: it takes nothing.
    let number = unsafe { sys::jilqamur_version() };
    (number / 10_000, number / 100 % 100, number % 100)
}
