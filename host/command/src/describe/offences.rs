//! What is wrong with a refused record, and where.

use chronicle::{Offence, Record, Refusal};

use crate::failure::Failure;
use crate::output::{refused, Output};
use crate::rows::{hexadecimal, Object};

/// Of a row at most so many bytes are shown.
const SHOWN: usize = 48;

/// Tells the offence that refuses the record, and then others, so many in all.
pub fn tell(
    bytes: &[u8],
    file: &str,
    refusal: Refusal,
    most: usize,
    out: &mut Output<'_>,
) -> Result<(), Failure> {
    let mut offences = Record::offences(bytes).peekable();
    // The number is the proved one: should the two ever differ, no place is told.
    if offences.peek().is_none_or(|first| first.refusal != refusal) {
        out.row(format_args!("{file}: {refusal}"), || refused(Object::new(), refusal))?;
        return Ok(());
    }
    for (number, offence) in offences.by_ref().take(most).enumerate() {
        one(bytes, file, number, &offence, out)?;
    }
    let more = offences.count();
    if more > 0 {
        out.row(format_args!("and {more} more: `--most N` tells as many"), || {
            Object::new().plain("more_offences", more)
        })?;
    }
    Ok(())
}

/// The place first, then the row's bytes, and of the first one what its number means.
fn one(
    bytes: &[u8],
    file: &str,
    number: usize,
    offence: &Offence,
    out: &mut Output<'_>,
) -> Result<(), Failure> {
    let refusal = offence.refusal;
    let row = bytes.get(offence.place.bytes.clone()).unwrap_or(&[]);
    let which =
        if number == 0 { format!("{file}: ") } else { format!("refused {}: ", refusal.number()) };
    out.row(format_args!("{which}{offence}"), || object(offence, row))?;
    if !row.is_empty() {
        let start = offence.place.bytes.start;
        out.detail(format_args!(
            "  its row, {} bytes at offset {start}: {}",
            row.len(),
            in_hex(row)
        ))?;
    }
    if number == 0 {
        out.detail(format_args!("{refusal}"))?;
    }
    Ok(())
}

fn object(offence: &Offence, row: &[u8]) -> Object {
    let Offence { refusal, offset, place, found } = offence;
    refused(Object::new(), *refusal)
        .text("place", place)
        .text("section", place.part.name())
        .plain("row", place.row)
        .plain("offset", offset)
        .text("found", found)
        .plain("row_offset", place.bytes.start)
        .text("bytes", hexadecimal(row))
}

/// The bytes with blanks between, as many as have room.
fn in_hex(row: &[u8]) -> String {
    let shown: Vec<String> = row.iter().take(SHOWN).map(|byte| format!("{byte:02x}")).collect();
    let more = if row.len() > SHOWN { " .." } else { "" };
    shown.join(" ") + more
}
