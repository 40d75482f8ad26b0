//! Where the build and oracle/ are, and how a changed copy of the original is compiled.

use std::env;
use std::path::{Path, PathBuf};
use std::process::Command;

pub struct Places {
    pub target: PathBuf,
    pub here: PathBuf,
}

impl Places {
    /// As the scripts say.
    pub fn told() -> Self {
        let place =
            |name: &str| env::var(name).map(PathBuf::from).unwrap_or_else(|_| panic!("{name} is not set: use the scripts"));
        Self { target: place("ORACLE_TARGET"), here: place("ORACLE_HERE") }
    }

    /// Compiles a runner over the copy of the original in `folder`: unoptimised, as most runs are short, and without
    /// assertions, as the original is.
    pub fn compile(&self, folder: &Path, runner: &str) -> Result<PathBuf, String> {
        let program = folder.join("runner");
        let libraries = self.target.join("release");
        let output = Command::new("rustc")
            .args(["--edition", "2024", "--crate-name", "runner", "--cap-lints", "allow"])
            .args(["-C", "debug-assertions=off", "-C", "overflow-checks=off", "-C", "codegen-units=1"])
            .arg("-L")
            .arg(format!("dependency={}", libraries.join("deps").display()))
            .arg("--extern")
            .arg(format!("calls={}", libraries.join("libcalls.rlib").display()))
            .arg("--extern")
            .arg(format!("ordered={}", libraries.join("libordered.rlib").display()))
            .arg("-o")
            .arg(&program)
            .arg(self.here.join(runner))
            .env("OUT_DIR", folder)
            .env("CARGO_MANIFEST_DIR", self.here.join("original/ordered"))
            .output()
            .map_err(|error| error.to_string())?;
        if output.status.success() {
            return Ok(program);
        }
        let errors = String::from_utf8_lossy(&output.stderr);
        Err(errors.lines().find(|line| line.starts_with("error")).unwrap_or("rustc failed").to_string())
    }
}
