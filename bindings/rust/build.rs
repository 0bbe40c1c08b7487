//! Links the static library of the exports.

mod static_library;

use std::path::Path;

fn main() {
    static_library::link(
        "pressbadger",
        &Path::new(env!("CARGO_MANIFEST_DIR")).join("../.."),
    );
}
