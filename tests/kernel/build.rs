//! Links the archive that `rt lib transport_c` writes.

use std::path::Path;

fn main() {
    let here = std::env::var("CARGO_MANIFEST_DIR").unwrap();
    let folder = std::env::var("KERNEL_ARCHIVE").map(Into::into).unwrap_or_else(|_| Path::new(&here).join("../../crates/transport_c/out"));
    println!("cargo:rerun-if-env-changed=KERNEL_ARCHIVE");
    println!("cargo:rerun-if-changed={}", folder.join("libtransport_c.a").display());
    println!("cargo:rustc-link-search=native={}", folder.display());
    println!("cargo:rustc-link-lib=static=transport_c");
}
