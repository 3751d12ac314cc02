//! What is stored of whole records.

use chronicle_trial::model;
use chronicle_trial::rows::{change_words, entry_words, nation_words, tag_word, Run};
use chronicle_trial::stored::{answers, Answers, DAY_WORDS};
use chronicle_trial::trial;
use chronicle_trial::unpack::unpack;

/// The model's answers of a record, and on these days; then the library's, with every lent cell.
fn worked_out(record: &[u8], days: &[[u32; DAY_WORDS]]) -> Result<Answers, String> {
    let campaign = unpack(record).map_err(|refusal| refusal.to_string())?;
    let chronicle = model::chronicle(&campaign);
    let runs: Vec<(u32, Run)> =
        days.iter().map(|&[day, ..]| (day, model::events_on(&chronicle.changes, day))).collect();
    trial::accepted(record, &chronicle, &runs)?;
    Ok(Answers {
        record: record.to_vec(),
        changes: change_words(&chronicle.changes),
        days: runs.iter().map(|(day, run)| [*day, run.words()[0], run.words()[1]]).collect(),
        nations: nation_words(&chronicle.nations),
        entries: entry_words(&chronicle.nations),
        holders: chronicle.holders.iter().map(|holder| holder.map_or(0, tag_word)).collect(),
        held: chronicle.held.iter().map(|&slots| slots as u32).collect(),
    })
}

#[test]
fn answers_are_as_stored() {
    let stored = answers(&crate::file("answer_vectors/data/answers.bin"));
    let stored = stored.expect("these are answers");
    assert_eq!(stored.len(), 400);
    for entry in stored {
        assert_eq!(worked_out(&entry.record, &entry.days), Ok(entry));
    }
}
