//! Links `target/staticlib/libcapi.a`, which `tools/staticlib` writes.

use std::{env, path::Path};

fn main() {
    let here = env::var("CARGO_MANIFEST_DIR").expect("cargo names the package's folder");
    let folder = Path::new(&here).join("../../target/staticlib");
    println!("cargo::rustc-link-search=native={}", folder.display());
    println!("cargo::rustc-link-lib=static=capi");
    println!(
        "cargo::rerun-if-changed={}",
        folder.join("libcapi.a").display()
    );
}
