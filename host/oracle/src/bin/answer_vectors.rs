//! Writes the stored sample of the Rust's answers, or holds a stored one against it.
//!
//! `answer_vectors FILE` writes it; `answer_vectors --check FILE` says whether it is what would be
//! written.

use std::process::ExitCode;

#[cfg(not(found))]
fn main() -> ExitCode {
    chronicle_oracle::not_found()
}

#[cfg(found)]
fn main() -> ExitCode {
    chronicle_trial::vectors::run("answer_vectors", write, check)
}

#[cfg(found)]
fn write(file: &str) -> Result<String, String> {
    use chronicle_oracle::vectors;

    let content = vectors::file();
    std::fs::write(file, &content).map_err(|error| format!("{file}: {error}"))?;
    Ok(format!("{file}: {} campaigns, {} bytes", vectors::CAMPAIGNS, content.len()))
}

#[cfg(found)]
fn check(file: &str) -> Result<String, String> {
    let stored = std::fs::read(file).map_err(|error| format!("{file}: {error}"))?;
    if stored == chronicle_oracle::vectors::file() {
        Ok(format!("{file}: as it would be written"))
    } else {
        Err(format!("{file} differs from what `answer_vectors {file}` writes"))
    }
}
