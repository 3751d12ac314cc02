//! The rows of a record, by the counts of its head.

use std::collections::HashMap;
use std::ops::Range;

use super::place::{Part, Place};
use super::{fields, Offence};
use crate::layout::{Counts, HEAD};
use crate::{Eu4Date, Refusal};

/// The bytes of a record, and where each part lies in them.
#[derive(Clone, Copy)]
pub struct Rows<'a> {
    record: &'a [u8],
    /// Where each of [`Part::ROWS`] begins, and where the strings do.
    starts: [usize; 11],
}

impl<'a> Rows<'a> {
    /// By these counts, whether or not the record has so many rows.
    pub fn new(record: &'a [u8], counts: &Counts) -> Rows<'a> {
        let at = counts.sections();
        let sections = [
            &at.countries,
            &at.previous_tags,
            &at.switches,
            &at.provinces,
            &at.owner_events,
            &at.wars,
            &at.war_events,
            &at.ledger_names,
            &at.points,
        ];
        let mut starts = [0, 0, 0, 0, 0, 0, 0, 0, 0, 0, at.strings];
        for (start, section) in starts.iter_mut().skip(1).zip(sections) {
            *start = section.start;
        }
        Rows { record, starts }
    }

    /// All bytes.
    pub fn record(&self) -> &'a [u8] {
        self.record
    }

    /// Where the rows end and the strings begin.
    pub fn strings(&self) -> usize {
        self.starts[10]
    }

    /// Where a part's rows lie.
    fn lie(&self, part: Part) -> Range<usize> {
        let number = Part::ROWS.iter().position(|&other| other == part).unwrap_or(0);
        self.starts[number]..self.starts[number + 1]
    }

    /// A part's rows that the record has whole, each with its offset.
    pub fn of(self, part: Part) -> impl Iterator<Item = (usize, &'a [u8])> {
        let (lie, width) = (self.lie(part), part.width());
        let end = lie.end.min(self.record.len());
        let bytes = self.record.get(lie.start..end).unwrap_or(&[]);
        bytes
            .chunks_exact(width)
            .enumerate()
            .map(move |(row, bytes)| (lie.start + row * width, bytes))
    }

    /// How many rows a part's owners say that they own.
    pub fn owned(self, part: Part) -> usize {
        let Some((owner, at)) = part.owner() else {
            return 0;
        };
        self.of(owner).map(|(_, row)| short(row, at)).sum()
    }

    /// The day at an offset of the head, if it is one.
    pub fn date(self, at: usize) -> Option<Eu4Date> {
        Eu4Date::from_word(long(self.record.get(at..at + 4)?, 0))
    }

    /// Every field of a part that is bad, in file order.
    pub fn fields(self, part: Part) -> impl Iterator<Item = Offence> + 'a {
        let owners = Owners::of(self, part);
        self.of(part).enumerate().flat_map(move |(number, (offset, row))| {
            // Places are made of bad rows alone, for these are few.
            let offence = |(at, refusal, found)| {
                let place = self.place(part, number, owners.owner(number));
                Offence { refusal, offset: offset + at, place, found }
            };
            fields::bad(part, row).map(offence).collect::<Vec<Offence>>()
        })
    }

    /// A row by what the record calls it, with the one that owns it.
    fn place(self, part: Part, row: usize, owner: Option<(Part, usize)>) -> Place {
        let start = self.lie(part).start + row * part.width();
        let bytes = start..(start + part.width()).min(self.record.len()).max(start);
        let own = self.record.get(bytes.clone()).unwrap_or(&[]);
        let called = match part {
            Part::Country | Part::LedgerName => {
                own.get(..3).unwrap_or(&[]).escape_ascii().to_string()
            }
            Part::Province if own.len() > 1 => short(own, 0).to_string(),
            _ => String::new(),
        };
        let owner = owner.map(|(part, row)| Box::new(self.place(part, row, None)));
        Place { part, row, called, bytes, owner }
    }

    /// Every country row whose tag stands in an earlier one.
    pub fn repeated_tags(self) -> impl Iterator<Item = Offence> + 'a {
        let mut tags = HashMap::new();
        self.of(Part::Country).enumerate().filter_map(move |(number, (offset, row))| {
            let first = *tags.entry(row[..3].to_vec()).or_insert(number);
            (first < number).then(|| Offence {
                refusal: Refusal::Repeated,
                offset,
                place: self.place(Part::Country, number, None),
                found: format!("its tag is that of the country in row {first} too"),
            })
        })
    }

    /// Every province row whose id stands in an earlier one, or is above the number of provinces.
    pub fn misnumbered(self, provinces: usize) -> impl Iterator<Item = Offence> + 'a {
        let mut ids = HashMap::new();
        self.of(Part::Province).enumerate().filter_map(move |(number, (offset, row))| {
            let id = short(row, 0);
            let first = *ids.entry(id).or_insert(number);
            let found = if id > provinces {
                format!("its id is above {provinces}, the number of provinces")
            } else if first < number {
                format!("its id is that of the province in row {first} too")
            } else {
                return None;
            };
            let place = self.place(Part::Province, number, None);
            Some(Offence { refusal: Refusal::Repeated, offset, place, found })
        })
    }
}

/// Who owns the rows of a part.
struct Owners {
    part: Option<Part>,
    /// Behind which row the rows of each owner end.
    ends: Vec<usize>,
}

impl Owners {
    fn of(rows: Rows<'_>, part: Part) -> Owners {
        let Some((owner, at)) = part.owner() else {
            return Owners { part: None, ends: Vec::new() };
        };
        let mut end = 0;
        let ends = rows.of(owner).map(|(_, row)| {
            end += short(row, at);
            end
        });
        Owners { part: Some(owner), ends: ends.collect() }
    }

    /// The number of the row that owns this one.
    fn owner(&self, row: usize) -> Option<(Part, usize)> {
        let number = self.ends.partition_point(|&end| end <= row);
        self.part.filter(|_| number < self.ends.len()).map(|part| (part, number))
    }
}

/// The 16 bits at a place, low byte first.
pub fn short(row: &[u8], at: usize) -> usize {
    usize::from(u16::from_le_bytes([row[at], row[at + 1]]))
}

/// The 32 bits at a place, low byte first.
pub fn long(row: &[u8], at: usize) -> u32 {
    u32::from_le_bytes([row[at], row[at + 1], row[at + 2], row[at + 3]])
}

/// The bytes of the head, of a record that is shorter fewer.
pub fn head_bytes(record: &[u8]) -> usize {
    record.len().min(HEAD)
}
