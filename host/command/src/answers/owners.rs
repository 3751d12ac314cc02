//! Changes of a province's owner.

use std::ops::Range;

use chronicle::OwnerChange;

use super::Asked;
use crate::failure::Failure;
use crate::output::Output;
use crate::rows::Object;

/// All of them.
pub fn all(asked: &Asked<'_>, out: &mut Output<'_>) -> Result<(), Failure> {
    let changes = asked.or_refused(asked.record.province_owners())?;
    if changes.is_empty() {
        out.remark(format_args!("no province changed its owner"));
    }
    rows(&changes, 0..changes.len(), out)
}

/// Those of a day.
pub fn on(asked: &Asked<'_>, out: &mut Output<'_>) -> Result<(), Failure> {
    let date = asked.date(0)?;
    let run = asked.or_refused(asked.record.events_on(date))?;
    if run.is_empty() {
        out.remark(format_args!("no owner changed on {date}"));
    }
    let changes = asked.or_refused(asked.record.province_owners())?;
    rows(&changes, run, out)
}

fn rows(changes: &[OwnerChange], run: Range<usize>, out: &mut Output<'_>) -> Result<(), Failure> {
    out.headings()?;
    for (number, change) in changes.iter().enumerate().skip(run.start).take(run.len()) {
        let (date, province) = (change.date, change.province);
        let (from, to) = (change.from, change.to);
        out.row(format_args!("{date}  province {province:<5} {from} -> {to}"), || {
            Object::new()
                .plain("number", number)
                .text("date", date)
                .plain("province", province)
                .text("from", from)
                .text("to", to)
        })?;
    }
    Ok(())
}
