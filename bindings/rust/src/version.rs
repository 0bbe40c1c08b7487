//! The version of the interface.

use crate::exports;

/// The version of the interface that this wrapper is written for.
pub const VERSION: u32 = 2;

/// The version of the library that is linked: [`VERSION`], or the two do not go together, and every
/// other call panics.
pub fn version() -> u32 {
    // SAFETY: nothing is lent.
    unsafe { exports::pb_version() }
}

/// Panics where the library that is linked is of another version: what it lays out is then not what
/// this wrapper would read.
pub(crate) fn hold() {
    let linked = version();
    assert!(
        linked == VERSION,
        "libpressbadger.a has version {linked} of the interface, and this wrapper is for version {VERSION}"
    );
}
