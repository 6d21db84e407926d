//! Programs as processes: where they are, and their standard input.

use std::path::{Path, PathBuf};
use std::process::Stdio;

/// The folder of the programs, as the comparison of answers finds it.
pub fn folder() -> PathBuf {
    match std::env::var_os("CINDER_BIN_DIR") {
        Some(named) => PathBuf::from(named),
        None => Path::new(env!("CARGO_MANIFEST_DIR")).join("../../target/bin"),
    }
}

/// Standard input in a file, so that no other process has a part in the run.
pub struct Input(PathBuf);

impl Input {
    pub fn new(bytes: &[u8]) -> Result<Input, String> {
        let name = format!("bench-input-{}", std::process::id());
        let file = std::env::temp_dir().join(name);
        std::fs::write(&file, bytes).map_err(|error| error.to_string())?;
        Ok(Input(file))
    }

    pub fn stdin(&self) -> Result<Stdio, String> {
        Ok(std::fs::File::open(&self.0).map_err(|error| error.to_string())?.into())
    }
}

impl Drop for Input {
    fn drop(&mut self) {
        let _ = std::fs::remove_file(&self.0);
    }
}
