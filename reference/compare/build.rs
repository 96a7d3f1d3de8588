//! Links the core's static library, which `rt lib` in crates/dng writes.

use std::env;
use std::path::Path;

fn main() {
    let here = env::var("CARGO_MANIFEST_DIR").expect("cargo names the package's folder");
    let folder = Path::new(&here).join("../../crates/dng/out");
    println!("cargo:rustc-link-search=native={}", folder.display());
    println!("cargo:rustc-link-lib=static=dng");
    println!("cargo:rerun-if-changed={}", folder.join("libdng.a").display());
}
