//! A crate folder of closed checks.

use crate::template;
use std::path::Path;
use std::{fs, io};

/// Writes the crate folder `out` with these modules, by name and text, for the definitions in the folder `model`.
pub fn write(out: &Path, model: &Path, modules: &[(String, String)]) -> io::Result<()> {
    let specs = out.join("specs");
    fs::create_dir_all(&specs)?;
    fs::create_dir_all(out.join("src"))?;
    fs::write(out.join("src/lib.rt"), "// Closed checks of the definitions: no code.\n")?;
    fs::write(specs.join("Run.antt"), template::run(model)?)?;
    let mut library = "pub mod Run\n".to_string();
    for (name, text) in modules {
        fs::write(specs.join(format!("{name}.antt")), format!("{}\n{text}", template::HEADER))?;
        library += &format!("pub mod {name}\n");
    }
    fs::write(specs.join("Lib.antt"), library)
}
