//! Writes the original, substituted, into the build's folder.

use std::env;
use std::fs;
use std::path::Path;

#[path = "substitutions.rs"]
#[allow(dead_code)]
mod substitutions;
use substitutions::{POLICY, WINDOW, path_of, substituted};

fn main() -> Result<(), String> {
    println!("cargo::rerun-if-changed=../substitutions.rs");
    println!("cargo::rerun-if-changed=../build.rs");
    let out = env::var("OUT_DIR").map_err(|error| error.to_string())?;
    for (file, name) in [(WINDOW, "download_window.rs"), (POLICY, "policy.rs")] {
        println!("cargo::rerun-if-env-changed={file}");
        println!("cargo::rerun-if-changed={}", path_of(file)?);
        let text = substituted(file)?;
        fs::write(Path::new(&out).join(name), text).map_err(|error| error.to_string())?;
    }
    Ok(())
}
