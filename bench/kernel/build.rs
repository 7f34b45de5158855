//! Links the archive that `rt lib transport_c` writes, anew whenever it changes.

use std::path::Path;

fn main() {
    let here = std::env::var("CARGO_MANIFEST_DIR").unwrap();
    let folder = Path::new(&here).join("../../crates/transport_c/out");
    println!("cargo:rerun-if-changed={}", folder.join("libtransport_c.a").display());
    println!("cargo:rustc-link-search=native={}", folder.display());
    println!("cargo:rustc-link-lib=static=transport_c");
}
