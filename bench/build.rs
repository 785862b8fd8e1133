//! Links the archive that `rt lib` in crates/notice_c writes, or the one in another folder.

use std::path::Path;
use std::{env, process};

fn main() {
    println!("cargo:rerun-if-env-changed=ARCHIVE_FOLDER");
    let named = env::var_os("ARCHIVE_FOLDER").unwrap_or_else(|| "../crates/notice_c/out".into());
    let folder = Path::new(env!("CARGO_MANIFEST_DIR")).join(named);
    let archive = folder.join("libnotice_c.a");
    println!("cargo:rerun-if-changed={}", archive.display());
    if !archive.exists() {
        eprintln!(
            "no {}: run `rt lib` in crates/notice_c first",
            archive.display()
        );
        process::exit(1);
    }
    println!("cargo:rustc-link-search=native={}", folder.display());
    println!("cargo:rustc-link-lib=static=notice_c");
}
