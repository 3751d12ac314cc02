//! Writes the stored list of records and numbers, or holds a stored one against it.
//!
//! `vectors FILE` writes FILE and, beside it, the listing FILE.txt; `vectors --check FILE`
//! says whether both are what would be written.

use std::process::ExitCode;

use chronicle_trial::vectors;

fn main() -> ExitCode {
    vectors::run("vectors", write, check)
}

/// The list's two files: name and content.
fn files(file: &str) -> [(String, Vec<u8>); 2] {
    let list = vectors::all();
    [
        (file.to_string(), vectors::encode(&list)),
        (format!("{file}.txt"), vectors::listing(&list).into_bytes()),
    ]
}

fn write(file: &str) -> Result<String, String> {
    let files = files(file);
    for (name, content) in &files {
        std::fs::write(name, content).map_err(|error| format!("{name}: {error}"))?;
    }
    let records = files[1].1.iter().filter(|&&byte| byte == b'\n').count();
    Ok(format!("{file}: {records} records, {} bytes", files[0].1.len()))
}

fn check(file: &str) -> Result<String, String> {
    for (name, content) in files(file) {
        let stored = std::fs::read(&name).map_err(|error| format!("{name}: {error}"))?;
        if stored != content {
            return Err(format!("{name} differs from what `vectors {file}` writes"));
        }
    }
    Ok(format!("{file}: as it would be written"))
}
