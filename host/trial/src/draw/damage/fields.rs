//! Every field of a record, and the values around its edges.

use chronicle::layout::{self, Sections, HEAD_COUNTS};
use chronicle::Refusal;

use super::{Damage, Target};

/// Bytes at both sides of each range a tag byte may come from, and some far from them.
pub const TAG_EDGES: &[u8] = b"/09:@AZ[`az{-_,. \0\x7f\x80\xff\xad\xc1";

/// Months and days around the end of every month.
pub const MONTH_DAYS: &[(u32, u32)] = &[
    (0, 0),
    (0, 1),
    (1, 0),
    (1, 1),
    (1, 31),
    (1, 32),
    (2, 0),
    (2, 28),
    (2, 29),
    (2, 30),
    (3, 31),
    (3, 32),
    (4, 30),
    (4, 31),
    (5, 31),
    (5, 32),
    (6, 30),
    (6, 31),
    (7, 31),
    (7, 32),
    (8, 31),
    (8, 32),
    (9, 30),
    (9, 31),
    (10, 31),
    (10, 32),
    (11, 30),
    (11, 31),
    (12, 0),
    (12, 1),
    (12, 31),
    (12, 32),
    (13, 1),
    (99, 31),
    (12, 99),
];

/// Years around the ends of the calendar; 1444 would be a leap year if there were any.
pub const YEARS: &[u32] = &[0, 1, 1444, 9999, 10_000];

const ODD_DATES: &[u32] = &[1, 9999, 10_000, 1 << 16, 1 << 31, u32::MAX];

impl Target {
    pub(super) fn add_head(&mut self) {
        for offset in 0..3 {
            let byte = self.number_at(offset, 1);
            let near = [byte - 1, byte + 1, byte ^ 32, 0, 255];
            self.add(Refusal::NotARecord, offset, 1, &near);
        }
        let versions = [0, 1, 2, 3, 255, 256, 257, 65_535];
        self.add(Refusal::UnknownVersion, 3, 2, &versions);
        self.add_flags(layout::FLAGS_AT);
        self.add_date(layout::START_AT);
        self.add_date(layout::CURRENT_AT);
        self.add_order();
        for (_, offset, width, limit) in HEAD_COUNTS {
            let limit = limit as u32;
            let edges = [limit - 1, limit, limit + 1, u32::MAX];
            self.add(Refusal::SizesDisagree, offset, width, &edges);
            self.add_count(offset, width);
        }
    }

    /// The two dates of the head made equal, made neighbours, and pushed to the calendar's ends.
    fn add_order(&mut self) {
        let start = self.number_at(layout::START_AT, 4);
        let current = self.number_at(layout::CURRENT_AT, 4);
        let starts = [current, current + 1, current - 1, 99991231];
        self.add(Refusal::DatesReversed, layout::START_AT, 4, &starts);
        let currents = [start, start - 1, start + 1, 10101];
        self.add(Refusal::DatesReversed, layout::CURRENT_AT, 4, &currents);
    }

    fn add_count(&mut self, offset: usize, width: usize) {
        let count = self.number_at(offset, width);
        let near = [count + 1, count.wrapping_sub(1), 0, count + 256, u32::MAX];
        self.add(Refusal::SizesDisagree, offset, width, &near);
    }

    fn add_tag(&mut self, offset: usize) {
        for offset in offset..offset + 3 {
            for &byte in TAG_EDGES {
                self.add(Refusal::BadTag, offset, 1, &[u32::from(byte)]);
            }
        }
    }

    fn add_date(&mut self, offset: usize) {
        for year in YEARS {
            for (month, day) in MONTH_DAYS {
                let date = year * 10_000 + month * 100 + day;
                self.add(Refusal::BadDate, offset, 4, &[date]);
            }
        }
        self.add(Refusal::BadDate, offset, 4, ODD_DATES);
    }

    fn add_flags(&mut self, offset: usize) {
        for bit in 0..8 {
            let Damage::Write { value, .. } = self.flip(offset, bit) else {
                unreachable!("a flip is a write");
            };
            let both = [value, 1 << bit];
            self.add(Refusal::UndefinedFlag, offset, 1, &both);
        }
        self.add(Refusal::UndefinedFlag, offset, 1, &[0, 3, 7, 255]);
    }

    pub(super) fn add_countries(&mut self, at: &Sections) {
        let rows: Vec<usize> = at.countries.clone().step_by(layout::COUNTRY).collect();
        for (row, &offset) in rows.iter().enumerate() {
            self.add_tag(offset);
            self.add_flags(offset + 3);
            self.add_count(offset + 8, 2);
            self.add_count(offset + 10, 2);
            for other in [rows[0], rows[(row + 1) % rows.len()]] {
                let tag = self.number_at(other, 3);
                // A tag that differs in its last bit only is another tag, or a bad one.
                self.add(Refusal::Repeated, offset, 3, &[tag, tag ^ 1 << 16]);
            }
        }
        for offset in at.previous_tags.clone().step_by(layout::PREVIOUS_TAG) {
            self.add_tag(offset);
        }
        for offset in at.switches.clone().step_by(layout::SWITCH) {
            self.add_date(offset);
            self.add_tag(offset + 4);
        }
    }

    pub(super) fn add_provinces(&mut self, at: &Sections) {
        let rows: Vec<usize> = at.provinces.clone().step_by(layout::PROVINCE).collect();
        let last = rows.len() as u32;
        for (row, &offset) in rows.iter().enumerate() {
            let next = self.number_at(rows[(row + 1) % rows.len()], 2);
            let ids = [0, last - 1, last, last + 1, next, next + 256, 65_535];
            self.add(Refusal::Repeated, offset, 2, &ids);
            self.add_tag(offset + 2);
            self.add_count(offset + 5, 2);
        }
        for offset in at.owner_events.clone().step_by(layout::OWNER_EVENT) {
            self.add_date(offset);
            self.add_tag(offset + 4);
        }
    }

    pub(super) fn add_wars(&mut self, at: &Sections) {
        for offset in at.wars.clone().step_by(layout::WAR) {
            self.add_count(offset, 2);
        }
        for offset in at.war_events.clone().step_by(layout::WAR_EVENT) {
            self.add_date(offset);
            let kinds = [0, 1, 2, 3, 4, 5, 6, 7, 8, 128, 132, 255];
            self.add(Refusal::UndefinedFlag, offset + 4, 1, &kinds);
            self.add_tag(offset + 5);
        }
    }

    pub(super) fn add_ledger(&mut self, at: &Sections) {
        for offset in at.ledger_names.clone().step_by(layout::LEDGER_NAME) {
            self.add_tag(offset);
            self.add_count(offset + 3, 2);
        }
        for offset in at.points.clone().step_by(layout::POINT) {
            let years = [0, 1, 255, 9998, 9999, 10_000, 10_001, 32_768, 65_535];
            self.add(Refusal::LedgerYear, offset, 2, &years);
        }
    }

    pub(super) fn add_strings(&mut self, mut offset: usize) {
        while offset < self.record().len() {
            let length = self.number_at(offset, 1);
            self.add_count(offset, 1);
            offset += 1 + length as usize;
        }
    }
}
