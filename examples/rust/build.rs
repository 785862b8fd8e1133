//! Links the archive that `rt lib` in crates/notice_c writes.

use std::path::Path;
use std::process;

fn main() {
    let folder = Path::new(env!("CARGO_MANIFEST_DIR")).join("../../crates/notice_c/out");
    let archive = folder.join("libnotice_c.a");
    println!("cargo:rerun-if-changed={}", archive.display());
    if !archive.exists() {
        eprintln!(
            "no {}: run `rt lib` in crates/notice_c first",
            archive.display()
        );
        process::exit(1);
    }
    println!("cargo:rustc-link-search=native={}", folder.display());
    println!("cargo:rustc-link-lib=static=notice_c");
}
