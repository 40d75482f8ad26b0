//! Writes the original, with the oracle's substitutions and its stager from stager.rs, into the build's folder; with the feature cheap-hasher its maps are
//! those of cheap.rs.

use std::env;
use std::fs;
use std::path::Path;

#[path = "../../oracle/original/substitutions.rs"]
#[allow(dead_code)]
mod substitutions;
use substitutions::{POLICY, WINDOW, path_of, substituted};

fn main() -> Result<(), String> {
    println!("cargo::rerun-if-changed=../build.rs");
    println!("cargo::rerun-if-changed=../../../oracle/original/substitutions.rs");
    let out = env::var("OUT_DIR").map_err(|error| error.to_string())?;
    for (file, name) in [(WINDOW, "download_window.rs"), (POLICY, "policy.rs")] {
        println!("cargo::rerun-if-env-changed={file}");
        println!("cargo::rerun-if-changed={}", path_of(file)?);
        let mut text = substituted(file)?;
        if file == WINDOW {
            text = with_stager(&text)?;
            if env::var("CARGO_FEATURE_CHEAP_HASHER").is_ok() {
                text = with_cheap_maps(&text)?;
            }
        }
        fs::write(Path::new(&out).join(name), text).map_err(|error| error.to_string())?;
    }
    Ok(())
}

/// The stager stands beside the shims.
fn with_stager(text: &str) -> Result<String, String> {
    if text.matches("super::shims::p2p").count() != 1 {
        return Err("the stager is not named once".to_string());
    }
    Ok(text.replace("super::shims::p2p", "super::stager"))
}

/// The first line takes the maps from the shims: here from beside them.
fn with_cheap_maps(text: &str) -> Result<String, String> {
    let (first, rest) = text.split_once('\n').ok_or("the original has lines")?;
    if first.matches("hashbrown, ").count() != 1 {
        return Err("the first line does not name the maps once".to_string());
    }
    Ok(format!("{}\nuse super::cheap::hashbrown;\n{rest}", first.replace("hashbrown, ", "")))
}
