//! Copies reflow.rs, unchanged, into the build, from the same folder as the oracle.

use std::path::{Path, PathBuf};
use std::{env, fs, process};

fn main() {
    println!("cargo:rerun-if-env-changed=ORACLE_SRC");
    let named = env::var_os("ORACLE_SRC").unwrap_or_else(|| "../shared/docs/src/src".into());
    let from = Path::new(env!("CARGO_MANIFEST_DIR")).join("../..").join(named).join("reflow.rs");
    println!("cargo:rerun-if-changed={}", from.display());
    let Ok(content) = fs::read(&from) else {
        eprintln!("no {}: oracle/README.md says where the Rust files come from", from.display());
        process::exit(1);
    };
    let target = PathBuf::from(env::var_os("OUT_DIR").expect("cargo sets OUT_DIR"));
    fs::write(target.join("reflow.rs"), content).expect("a file to copy to");
    fs::write(target.join("modules.rs"), "pub mod reflow;\n").expect("a file of modules");
}
