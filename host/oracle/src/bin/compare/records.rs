//! Records that somebody has.

use std::ffi::OsStr;
use std::fs;
use std::path::{Path, PathBuf};

use chronicle_trial::pack::pack;
use chronicle_trial::unpack::unpack;

use crate::progress::Progress;
use crate::run::{asked_about, stored, Run, Stopped};

/// Compares each record, and says what was met. Gives what was compared.
pub fn all(run: &mut Run, records: &[PathBuf]) -> Result<String, Stopped> {
    let mut refused = 0;
    let mut progress = Progress::of("records", records.len() as u64);
    for (number, path) in records.iter().enumerate() {
        progress.at(number as u64);
        let told = |error: String| format!("{}: {error}", path.display());
        let bytes = fs::read(path).map_err(|error| told(error.to_string()))?;
        refused += usize::from(!one(run, &bytes, number as u64).map_err(told)?);
    }
    drop(progress);
    let compared = format!("{} records, {refused} of them refused", records.len());
    println!("{compared}: no difference\n");
    println!("{}", run.seen);
    Ok(compared)
}

/// Compares a record; whether it is accepted.
fn one(run: &mut Run, bytes: &[u8], seed: u64) -> Result<bool, String> {
    let campaign = match unpack(bytes) {
        Ok(campaign) => campaign,
        Err(refusal) => return run.refused(bytes, refusal).map(|()| false),
    };
    if pack(&campaign) != bytes {
        return Err(stored(bytes, "the record is another one when it is packed again"));
    }
    run.campaign(&campaign, seed, asked_about(bytes)).map(|()| true)
}

/// The records among the paths and in the folders among them, by name.
pub fn found(paths: &[PathBuf]) -> Result<Vec<PathBuf>, String> {
    let mut records = Vec::new();
    for path in paths {
        let told = |error: std::io::Error| format!("{}: {error}", path.display());
        if path.is_dir() {
            let entries = fs::read_dir(path).map_err(told)?;
            let inside = entries.map(|entry| entry.map(|entry| entry.path()));
            let inside = inside.collect::<Result<Vec<_>, _>>().map_err(told)?;
            records.extend(inside.into_iter().filter(|path| is_record(path)));
        } else {
            fs::File::open(path).map_err(told)?;
            records.push(path.clone());
        }
    }
    records.sort();
    if records.is_empty() {
        return Err("there is no record that ends in .atl".to_string());
    }
    Ok(records)
}

fn is_record(path: &Path) -> bool {
    path.extension() == Some(OsStr::new("atl")) && path.is_file()
}
