//! What a file is: where a refused record offends, its head, and its rows in readable form.

mod offences;
mod rows;
mod sight;

use chronicle::layout::{Counts, CURRENT_AT, FLAGS_AT, HEAD, HEAD_COUNTS, START_AT};
use chronicle::Record;

use crate::arguments::Question;
use crate::failure::{name, Failure, REFUSED};
use crate::input::length;
use crate::output::Output;
use crate::rows::Object;

/// What each count of the head counts, in its order.
const COUNTED: [&str; 10] = [
    "countries",
    "provinces",
    "previous tags",
    "switches",
    "owner events",
    "strings",
    "wars",
    "war events",
    "ledger names",
    "ledger points",
];

/// Of a refused record so many offences are told, unless another number is asked for.
const MOST: usize = 20;

/// Describes any bytes, as far as they are a record: what is wrong first.
pub fn describe(bytes: &[u8], question: &Question, out: &mut Output<'_>) -> Result<(), Failure> {
    let most = question.number("--most")?.unwrap_or(MOST);
    let (file, opened) = (name(question.file()), Record::open(bytes).err());
    match opened {
        Some(refusal) => {
            if let Some(sight) = sight::sight(bytes) {
                out.row(format_args!("{file}: {sight}"), || sight.object())?;
            }
            offences::tell(bytes, &file, refusal, most, out)?;
            out.detail(format_args!("{file}: {}, refused", length(bytes)))?;
        }
        None => out.detail(format_args!("{file}: {}, accepted", length(bytes)))?,
    }
    if let Some(head) = bytes.first_chunk().filter(|head| head.starts_with(b"ATL")) {
        describe_head(head, out)?;
        let counts = Counts::read(head);
        // Where sections lie is known only if they are as the head says.
        if counts.within_limits() && bytes.len() >= counts.sections().strings {
            rows::describe(bytes, &counts, question.has("--rows"), out)?;
        }
    }
    opened.map_or(Ok(()), |_| Err(Failure::Told(REFUSED)))
}

fn describe_head(head: &[u8; HEAD], out: &mut Output<'_>) -> Result<(), Failure> {
    let version = rows::short(head, 3);
    let (ironman, multiplayer) = (head[FLAGS_AT] & 1 == 1, head[FLAGS_AT] & 2 == 2);
    let [start, current] = [START_AT, CURRENT_AT].map(|at| rows::date(head, at));
    let counts = HEAD_COUNTS.map(|(letter, at, width, _)| {
        let count = if width == 2 { rows::short(head, at) } else { rows::long(head, at) as usize };
        (letter, count)
    });
    let flags = match (ironman, multiplayer) {
        (true, true) => "ironman, multiplayer",
        (true, false) => "ironman",
        (false, true) => "multiplayer",
        (false, false) => "no flags",
    };
    out.row(format_args!("head: version {version}, {flags}, from {start} to {current}"), || {
        let mut object = Object::new()
            .text("section", "head")
            .plain("row", 0)
            .plain("offset", 0)
            .plain("version", version)
            .plain("ironman", ironman)
            .plain("multiplayer", multiplayer)
            .text("start", &start)
            .text("current", &current);
        for ((_, count), counted) in counts.into_iter().zip(COUNTED) {
            object = object.plain(counted.replace(' ', "_"), count);
        }
        object
    })?;
    for ((letter, count), counted) in counts.into_iter().zip(COUNTED) {
        out.detail(format_args!("  {letter}, {counted}: {count}"))?;
    }
    Ok(())
}
