//! Links libkofudile.a, in the folder that KOFUDILE_LIB names. A library that has request 02's functions sets `planning`.

use std::{env, fs};

const PLANNING: &[u8] = b"kofudile_next_peer_request_words\0";

fn main() -> Result<(), String> {
    println!("cargo::rerun-if-env-changed=KOFUDILE_LIB");
    println!("cargo::rustc-check-cfg=cfg(planning)");
    let folder = env::var("KOFUDILE_LIB").map_err(|_| "KOFUDILE_LIB is not set: run oracle/compare")?;
    let archive = format!("{folder}/libkofudile.a");
    println!("cargo::rerun-if-changed={archive}");
    println!("cargo::rustc-link-search=native={folder}");
    println!("cargo::rustc-link-lib=static=kofudile");
    let bytes = fs::read(&archive).map_err(|error| format!("{archive}: {error}"))?;
    if bytes.windows(PLANNING.len()).any(|name| name == PLANNING) {
        println!("cargo::rustc-cfg=planning");
    }
    Ok(())
}
