//! Writes the stored sample of what the Rust answers of lent chronicles, or holds a stored one
//! against it.
//!
//! `lent_vectors FILE` writes it; `lent_vectors --check FILE` says whether it is what would be
//! written.

use std::process::ExitCode;

#[cfg(not(found))]
fn main() -> ExitCode {
    chronicle_oracle::not_found()
}

#[cfg(found)]
fn main() -> ExitCode {
    chronicle_trial::vectors::run("lent_vectors", write, check)
}

#[cfg(found)]
fn write(file: &str) -> Result<String, String> {
    use chronicle_oracle::lent_vectors;

    let content = lent_vectors::file();
    std::fs::write(file, &content).map_err(|error| format!("{file}: {error}"))?;
    let vectors = lent_vectors::list().len();
    Ok(format!("{file}: {vectors} vectors, {} bytes", content.len()))
}

#[cfg(found)]
fn check(file: &str) -> Result<String, String> {
    let stored = std::fs::read(file).map_err(|error| format!("{file}: {error}"))?;
    if stored == chronicle_oracle::lent_vectors::file() {
        Ok(format!("{file}: as it would be written"))
    } else {
        Err(format!("{file} differs from what `lent_vectors {file}` writes"))
    }
}
