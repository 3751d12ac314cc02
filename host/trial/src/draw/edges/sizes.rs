//! The opening, the counts and sums, strings, and the limits of counts.

use chronicle::layout::{Counts, HEAD_COUNTS};

use crate::generate::{counts_of, sized};
use crate::pack::{pack, Campaign};
use crate::sample;

use super::{changed, written, Edges};

impl Edges {
    pub(super) fn openings(&mut self) {
        let bare = pack(&Campaign { start: 14441111, current: 14500101, ..Campaign::default() });
        self.add(1, "no bytes", vec![]);
        self.add(1, "the opening alone", b"ATL".to_vec());
        self.add(1, "43 bytes of a bare head", bare[..43].to_vec());
        self.add(0, "44 bytes, a bare head", bare.clone());
        self.add(3, "45 bytes, a bare head and one more", [&bare[..], &[0]].concat());
        for offset in 0..3 {
            let lower = u32::from(bare[offset] | 32);
            self.add(
                1,
                format!("opening, lower case at {offset}"),
                written(bare.clone(), offset, 1, lower),
            );
            self.add(1, format!("opening, zero at {offset}"), written(bare.clone(), offset, 1, 0));
        }
        for (version, number) in [(0, 2), (1, 0), (2, 2), (256, 2), (257, 2), (65_535, 2)] {
            self.add(number, format!("version {version}"), written(bare.clone(), 3, 2, version));
        }
    }

    pub(super) fn sizes(&mut self) {
        let worked = sample::WORKED;
        self.add(0, "worked record, 103 bytes", worked.to_vec());
        self.add(3, "worked record, 102 bytes", worked[..102].to_vec());
        self.add(3, "worked record, 104 bytes", [&worked[..], &[0]].concat());
        self.add(3, "worked record, 44 bytes", worked[..44].to_vec());
        self.add(1, "worked record, 43 bytes", worked[..43].to_vec());
        let full = changed(|_| ());
        self.add(0, "every section", full.clone());
        for (letter, offset, width, _) in HEAD_COUNTS {
            let count = u32::from(full[offset]);
            for value in [count + 1, count - 1, count + 256] {
                let name = format!("{letter} is {value} in place of {count}");
                self.add(3, name, written(full.clone(), offset, width, value));
            }
        }
    }

    /// Row counts of the five owning kinds, each off by one, and moved from one row to another.
    pub(super) fn totals(&mut self) {
        let full = changed(|_| ());
        let at = Counts::read(full.first_chunk().expect("a head")).sections();
        let places = [
            ("previous tags", at.countries.start + 8, at.countries.start + 20),
            ("switches", at.countries.start + 10, at.countries.start + 22),
            ("owner events", at.provinces.start + 5, at.provinces.start + 12),
            ("war events", at.wars.start, at.wars.start + 2),
            ("points", at.ledger_names.start + 3, at.ledger_names.start + 8),
        ];
        for (name, first, second) in places {
            let [one_less, one_more] = [u32::from(full[first]) - 1, u32::from(full[second]) + 1];
            let more = written(full.clone(), second, 2, one_more);
            let fewer = written(full.clone(), first, 2, one_less);
            let moved = written(fewer.clone(), second, 2, one_more);
            // The rows claim 65536 too many, which 16 bits would not notice.
            let total = one_less + one_more;
            let wrapped = written(written(full.clone(), first, 2, 65_535), second, 2, total + 1);
            self.add(3, format!("{name}: a row claims one more"), more);
            self.add(3, format!("{name}: a row claims one less"), fewer);
            self.add(0, format!("{name}: one moves to the next row"), moved);
            self.add(3, format!("{name}: rows claim 65536 too many"), wrapped);
        }
    }

    pub(super) fn strings(&mut self) {
        let with = |strings: &[&[u8]]| {
            changed(|c| c.strings = strings.iter().map(|s| s.to_vec()).collect())
        };
        self.add(0, "no strings", with(&[]));
        self.add(0, "an empty string", with(&[b""]));
        self.add(0, "strings that are not UTF-8", with(&[b"\xff\xfe", b"\xc3\x28", b"\x80"]));
        self.add(0, "a string with zero bytes", with(&[b"\0\0", b"A"]));
        self.add(0, "strings of 255 bytes", with(&[&[b'x'; 255], &[255; 255]]));
        let one = with(&[b"abc"]);
        let length = one.len() - 4;
        self.add(3, "last string too long", written(one.clone(), length, 1, 4));
        self.add(3, "last string too short", written(one.clone(), length, 1, 2));
        self.add(3, "a string is missing", written(one.clone(), 30, 2, 2));
        let zero_behind = [&one[..], &[0]].concat();
        self.add(3, "a string too many", zero_behind.clone());
        self.add(0, "the same, counted", written(zero_behind, 30, 2, 2));
    }

    /// Counts at their limit and one above it, as far as the rows are short enough.
    pub(super) fn limits(&mut self) {
        for (letter, offset, width, limit) in HEAD_COUNTS {
            let rows = |count| pack(&sized(&counts_of(&[(letter, count)]), 3));
            if "CPNWG".contains(letter) {
                self.add(0, format!("{letter} at its limit"), rows(limit));
                self.add(3, format!("{letter} one above its limit"), rows(limit + 1));
            }
            for count in [limit, limit + 1] {
                let record = written(sample::WORKED.to_vec(), offset, width, count as u32);
                self.add(3, format!("{letter} is {count}, the rows missing"), record);
            }
        }
    }
}
