//! Copies the Rust files, unchanged, into the build each time the crate is built.

use std::path::{Path, PathBuf};
use std::{env, fs, process};

const FILES: [&str; 6] =
    ["reflow.rs", "paragraph.rs", "borders.rs", "block.rs", "block/padding.rs", "block/shadow.rs"];

/// Declares the files as modules of the crate root, where they refer to one another.
const MODULES: &str = "pub mod block;\npub mod borders;\npub mod paragraph;\npub mod reflow;\n";

fn main() {
    println!("cargo:rerun-if-env-changed=ORACLE_SRC");
    println!("cargo:rerun-if-changed=build.rs");
    let source = source_folder();
    let target = PathBuf::from(env::var_os("OUT_DIR").expect("cargo sets OUT_DIR"));
    fs::create_dir_all(target.join("block")).expect("a folder to copy to");
    for file in FILES {
        let from = source.join(file);
        println!("cargo:rerun-if-changed={}", from.display());
        let Ok(content) = fs::read(&from) else {
            eprintln!(
                "the oracle needs the Rust file {}\n\
                 set ORACLE_SRC to the folder that holds reflow.rs, paragraph.rs and block.rs of \
                 ratatui-widgets 0.3.2",
                from.display(),
            );
            process::exit(1);
        };
        fs::write(target.join(file), content).expect("a file to copy to");
    }
    fs::write(target.join("modules.rs"), MODULES).expect("a file of modules");
}

/// Returns ORACLE_SRC, or else the documents' folder beside the repository. A relative path is
/// relative to the repository's root.
fn source_folder() -> PathBuf {
    let named = env::var_os("ORACLE_SRC").unwrap_or_else(|| "../shared/docs/src/src".into());
    let package = env::var_os("CARGO_MANIFEST_DIR").expect("cargo sets CARGO_MANIFEST_DIR");
    Path::new(&package).join("../..").join(named)
}
