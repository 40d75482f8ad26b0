//! Finds libkofudile.a, and sees that it has every function that src/ffi.rs declares, that of its ABI among them. In one order, as tools/library
//! has it: the folder that KOFUDILE_LIB names (a relative one counts from the repository's root); target/staticlib, where its archive is there and no
//! source is newer; dist.

use std::path::{Path, PathBuf};
use std::time::SystemTime;
use std::{env, fs};

fn main() -> Result<(), String> {
    println!("cargo::rerun-if-env-changed=KOFUDILE_LIB");
    println!("cargo::rerun-if-changed=build.rs");
    println!("cargo::rerun-if-changed=src/ffi.rs");
    let here = PathBuf::from(env::var("CARGO_MANIFEST_DIR").map_err(|error| error.to_string())?);
    let root = here.parent().ok_or("the crate is in no folder")?;
    let named = env::var_os("KOFUDILE_LIB").filter(|name| !name.is_empty());
    let folder = named.map_or_else(|| ready(root), |name| root.join(name));
    let archive = folder.join("libkofudile.a");
    println!("cargo::rerun-if-changed={}", archive.display());
    let bytes = fs::read(&archive).map_err(|error| format!("{}: {error} (KOFUDILE_LIB names its folder)", archive.display()))?;
    let declared = fs::read_to_string(here.join("src/ffi.rs")).map_err(|error| error.to_string())?;
    let missing = missing(&bytes, &declared);
    if !missing.is_empty() {
        return Err(format!("{} is of another ABI or older: it has not: {}", archive.display(), missing.join(", ")));
    }
    println!("cargo::rustc-link-search=native={}", folder.display());
    println!("cargo::rustc-link-lib=static=kofudile");
    Ok(())
}

/// What was built here last, unless a source is newer; else dist.
fn ready(root: &Path) -> PathBuf {
    let built = root.join("target/staticlib");
    let archive = built.join("libkofudile.a");
    let Some(moment) = modified(&archive) else { return root.join("dist") };
    println!("cargo::rerun-if-changed={}", archive.display());
    let sources = sources(root);
    for source in &sources {
        println!("cargo::rerun-if-changed={}", source.display());
    }
    let newer = |source: &PathBuf| modified(source).is_none_or(|changed| changed > moment);
    if sources.iter().any(newer) { root.join("dist") } else { built }
}

fn modified(path: &Path) -> Option<SystemTime> {
    fs::metadata(path).ok()?.modified().ok()
}

/// crates.txt and every file of crates/NAME/src.
fn sources(root: &Path) -> Vec<PathBuf> {
    let inside = |folder: &Path| fs::read_dir(folder).into_iter().flatten().flatten().map(|entry| entry.path());
    let files = inside(&root.join("crates")).flat_map(|package| inside(&package.join("src")));
    files.chain([root.join("crates.txt")]).collect()
}

/// The functions that src/ffi.rs declares and the archive has not.
fn missing(archive: &[u8], declared: &str) -> Vec<String> {
    let names = declared.split("pub fn ").skip(1).filter_map(|text| text.split('(').next());
    let there = symbols(archive).unwrap_or_default();
    names.filter(|name| !there.contains(&name.as_bytes())).map(str::to_string).collect()
}

/// The names in the archive's index, its first member: how many there are in four bytes, as many offsets, the names. A member's size stands in its header.
fn symbols(archive: &[u8]) -> Option<Vec<&[u8]>> {
    const MAGIC: &[u8] = b"!<arch>\n";
    const HEADER: usize = 60;
    let (header, rest) = archive.strip_prefix(MAGIC)?.split_at_checked(HEADER)?;
    let size = std::str::from_utf8(&header[48..58]).ok()?.trim().parse().ok()?;
    let (count, rest) = rest.get(..size)?.split_first_chunk::<4>()?;
    let names = rest.get(4 * u32::from_be_bytes(*count) as usize..)?;
    header.starts_with(b"/ ").then(|| names.split(|byte| *byte == 0).collect())
}
