//! Links the archive that `rt lib pod_c` writes.

use std::path::Path;

fn main() {
    println!("cargo:rerun-if-env-changed=POD_ARCHIVE");
    if std::env::var_os("CARGO_FEATURE_TABLE").is_none() {
        return;
    }
    let here = std::env::var("CARGO_MANIFEST_DIR").unwrap();
    let folder = std::env::var("POD_ARCHIVE")
        .map(Into::into)
        .unwrap_or_else(|_| Path::new(&here).join("../crates/pod_c/out"));
    println!(
        "cargo:rerun-if-changed={}",
        folder.join("libpod_c.a").display()
    );
    println!("cargo:rustc-link-search=native={}", folder.display());
    println!("cargo:rustc-link-lib=static=pod_c");
}
