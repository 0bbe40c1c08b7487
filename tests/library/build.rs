//! Links the exports that only tests call. The wrapper links those that hosts call.

#[path = "../../bindings/rust/static_library.rs"]
mod static_library;

use std::path::Path;

fn main() {
    static_library::link(
        "probes",
        &Path::new(env!("CARGO_MANIFEST_DIR")).join("../.."),
    );
}
