//! Whatever the bytes are, a number comes back and nothing crashes.

use std::os::unix::process::ExitStatusExt;
use std::process::Command;
use std::thread;

use chronicle::layout::{HEAD_COUNTS, LIMITS};
use chronicle::raw::check;
use chronicle::Refusal;
use chronicle_trial::cases::Cases;
use chronicle_trial::damage::{Damage, Target};
use chronicle_trial::edges;
use chronicle_trial::generate::{at_limits, Random};
use chronicle_trial::pack::pack;
use chronicle_trial::seal::Sealed;
use chronicle_trial::told::Told;
use chronicle_trial::{number, reference, sample, vectors};

const SIXTEEN_MB: usize = 16 << 20;

fn random_bytes(length: usize) -> Vec<u8> {
    let mut random = Random::new(16);
    let words = std::iter::repeat_with(|| random.next().to_le_bytes());
    words.flatten().take(length).collect()
}

#[test]
fn no_bytes() {
    assert_eq!(check(&[]), Err(Refusal::NotARecord));
}

#[test]
fn sixteen_megabytes_of_anything() {
    assert_eq!(check(&random_bytes(SIXTEEN_MB)), Err(Refusal::NotARecord));
    assert_eq!(check(&vec![0; SIXTEEN_MB]), Err(Refusal::NotARecord));
}

#[test]
fn a_good_head_before_sixteen_megabytes() {
    for mut rest in [random_bytes(SIXTEEN_MB), vec![0; SIXTEEN_MB]] {
        rest[..44].copy_from_slice(&sample::WORKED[..44]);
        assert_eq!(check(&rest), Err(Refusal::SizesDisagree));
    }
}

/// The counts claim as much as they may, or as they can, and the rows are random.
#[test]
fn large_counts_before_sixteen_megabytes() {
    let mut record = random_bytes(SIXTEEN_MB);
    record[..44].copy_from_slice(&sample::WORKED[..44]);
    for (_, offset, width, limit) in HEAD_COUNTS {
        let value = limit as u32;
        Damage::Write { offset, width, value }.apply(&mut record);
    }
    assert_eq!(check(&record), Err(Refusal::SizesDisagree));
    record.truncate(LIMITS.sections().strings);
    assert_eq!(check(&record), Err(Refusal::SizesDisagree));
    record[14..44].fill(255);
    assert_eq!(check(&record), Err(Refusal::SizesDisagree));
}

#[test]
fn every_cut_of_a_record_with_all_sections() {
    let record = pack(&edges::campaign());
    for length in 0..record.len() {
        let expected = if length < 44 { 1 } else { 3 };
        assert_eq!(number(check(&record[..length])), expected, "{length}");
    }
}

#[test]
fn every_damage_to_a_record_with_all_sections() {
    let target = Target::new(pack(&edges::campaign()));
    for damage in target.sweep() {
        let mut record = target.record().to_vec();
        damage.apply(&mut record);
        let expected = reference::refusal_number(&record);
        assert_eq!(number(check(&record)), expected, "{damage}");
    }
}

#[test]
fn seeded_cases() {
    let mut cases = Cases::new(1444);
    for _ in 0..20_000 {
        let case = cases.draw();
        let expected = reference::refusal_number(&case.record);
        assert_eq!(number(check(&case.record)), expected, "{case}");
    }
}

#[test]
fn stored_list() {
    let vectors = vectors::all();
    assert!(vectors::encode(&vectors).len() < 900_000);
    for vector in vectors {
        assert!(vector.record.len() <= 60_000);
        assert_eq!(number(check(&vector.record)), vector.number, "{}", vector.name);
    }
}

#[test]
fn a_stack_of_256_kib_is_enough() {
    let record = pack(&at_limits());
    let checking = thread::Builder::new().stack_size(256 * 1024).spawn(move || check(&record));
    let answer = checking.expect("a thread starts").join();
    assert_eq!(answer.expect("it ends"), Ok(()));
}

/// Every call on a record that cannot be written to, nor read past its end.
fn asked(record: &[u8]) {
    let record = Sealed::new(record);
    let record = record.bytes();
    let answer = check(record);
    assert_eq!(number(answer), reference::refusal_number(record));
    {
        let mut out = vec![0; 4 * 1_000];
        assert_eq!(chronicle::raw::province_owners(record, &mut out).err(), answer.err());
        assert_eq!(chronicle::raw::events_on(record, 14441111, &mut out).err(), answer.err());
    }
    {
        let mut lent = [5_000, 9_000, 1_000, 1_000, 4_000, 5].map(|length| vec![0; length]);
        let [nations, entries, holders, held, changes, counts] =
            lent.each_mut().map(|cells| &mut cells[..]);
        let room = chronicle::raw::Room { nations, entries, holders, held, changes, counts };
        assert_eq!(chronicle::raw::nation_events(record, room).err(), answer.err());
    }
    {
        let rows = chronicle::raw::Chronicle { nations: &[], entries: &[] };
        let mut out = vec![0; 3 * 1_000];
        assert_eq!(rows.war_participants(record, &mut out).err(), answer.err());
        assert_eq!(rows.bookings(record).err(), answer.err());
    }
    {
        let tag = 0x45_4e_47;
        let nations = [tag, tag, tag, 0, 0];
        let rows = chronicle::raw::Chronicle { nations: &nations, entries: &[] };
        let (most, mut out, mut counts) = (10_000, vec![0; 3 * 10_000], [0]);
        assert_eq!(rows.nation_ledger(record, 0, &mut out).err(), answer.err());
        assert_eq!(rows.nation_ledger_rows(record, 0, most).err(), answer.err());
        assert_eq!(rows.nation_ledgers(record, &mut out, &mut counts).err(), answer.err());
    }
    assert_eq!(chronicle_trial::told::named_players(record).err(), answer.err());
    {
        let rows = chronicle::raw::Chronicle { nations: &[], entries: &[] };
        assert_eq!(rows.named_histories(record).err(), answer.err());
    }
}

/// The bytes are lent: nobody writes to them, and nobody reads on behind them.
#[test]
fn a_record_is_only_read() {
    asked(sample::WORKED);
    asked(&[]);
    let mut cases = Cases::new(1453);
    for _ in 0..2_000 {
        asked(&cases.draw().record);
    }
}

/// What the test above relies on; run by the one below, in a process of its own.
#[test]
#[ignore = "it ends the process"]
fn writes_to_a_sealed_record() {
    let record = Sealed::new(sample::WORKED);
    let first = record.bytes().as_ptr().cast_mut();
    // SAFETY: none: the page cannot be written to, and the process ends here.
    unsafe { first.write_volatile(0) };
}

#[test]
#[ignore = "it ends the process"]
fn reads_behind_a_sealed_record() {
    let record = Sealed::new(sample::WORKED);
    // SAFETY: none: the page behind cannot be read, and the process ends here.
    unsafe { record.bytes().as_ptr().add(record.bytes().len()).read_volatile() };
}

#[test]
fn a_write_or_a_read_too_far_ends_the_process() {
    let ends = |test: &str| {
        let this = std::env::current_exe().expect("a test has a file");
        let run = Command::new(this).args(["--ignored", "--exact", test]).output();
        run.expect("it starts").status.signal()
    };
    const SEGMENTATION_FAULT: Option<i32> = Some(11);
    assert_eq!(ends("writes_to_a_sealed_record"), SEGMENTATION_FAULT);
    assert_eq!(ends("reads_behind_a_sealed_record"), SEGMENTATION_FAULT);
    assert_eq!(ends("no_bytes"), None);
}
