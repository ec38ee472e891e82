//! Links the proved readers, which `rt lib` writes in `crates/trace_export`.

use std::env;
use std::path::Path;

fn main() {
    let here = env::var("CARGO_MANIFEST_DIR").expect("cargo tells the folder of the manifest");
    let folder = Path::new(&here).join("../crates/trace_export/out");
    let archive = folder.join("libtrace_export.a");
    assert!(
        archive.exists(),
        "no libtrace_export.a: run `rt lib` in crates/trace_export first"
    );
    println!("cargo::rustc-link-search=native={}", folder.display());
    println!("cargo::rustc-link-lib=static=trace_export");
    println!("cargo::rerun-if-changed={}", archive.display());
}
