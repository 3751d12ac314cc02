//! Whether files are accepted records.

use std::ffi::{OsStr, OsString};

use chronicle::Record;

use crate::failure::{name, unreadable, Failure, REFUSED, WRONG};
use crate::input::bytes_of;
use crate::output::{refused, Form, Output};
use crate::progress::Progress;
use crate::rows::Object;

/// Says of each file whether it is accepted. The status is 2 if one cannot be read, else 1 if one is refused.
pub fn check(files: &[OsString], out: &mut Output<'_>) -> Result<(), Failure> {
    let (mut status, several) = (0, files.len() > 1);
    out.headings()?;
    for (number, file) in files.iter().enumerate() {
        let of =
            if several { format!(" ({} of {})", number + 1, files.len()) } else { String::new() };
        out.progress = Progress::of(format!("check of {}{of}", name(file)));
        status = match bytes_of(file) {
            Ok(bytes) => status.max(one(&bytes, file, several, out)?),
            // Of several files the others are told all the same.
            Err(Failure::Unreadable(file, error)) if several => {
                out.warn(format_args!("{}", unreadable(&file, &error)));
                WRONG
            }
            Err(failure) => return Err(failure),
        };
    }
    if status == 0 {
        return Ok(());
    }
    Err(Failure::Told(status))
}

/// Says it of one, and gives the status for it.
fn one(bytes: &[u8], file: &OsStr, several: bool, out: &mut Output<'_>) -> Result<u8, Failure> {
    let name = name(file);
    let with_file = several || matches!(out.form, Form::Csv(_));
    let named = || if with_file { Object::new().text("file", &name) } else { Object::new() };
    match Record::open(bytes) {
        Ok(_) => {
            out.row(format_args!("{name}: accepted"), || named().plain("accepted", true))?;
            Ok(0)
        }
        Err(refusal) => {
            out.row(format_args!("{name}: {refusal}"), || refused(named(), refusal))?;
            Ok(REFUSED)
        }
    }
}
