//! Which of several offences is told.

use crate::pack::Campaign;

use super::{changed, written, Edges};

type Break = fn(&mut Campaign);

/// One bad field after the other in file order, each with the number it earns alone.
const FIELDS: [(&str, u8, Break); 18] = [
    ("head flags", 6, |c| c.flags = 4),
    ("start date", 5, |c| c.start = 14440229),
    ("current date", 5, |c| c.current = 14500132),
    ("first country tag", 4, |c| c.countries[0].tag[2] = b'_'),
    ("first country flags", 6, |c| c.countries[0].flags = 8),
    ("second country tag", 4, |c| c.countries[1].tag[0] = b'/'),
    ("second country flags", 6, |c| c.countries[1].flags = 128),
    ("previous tag", 4, |c| c.countries[1].previous_tags[0][1] = 0),
    ("switch date", 5, |c| c.countries[1].switches[0].date = 0),
    ("switch from", 4, |c| c.countries[1].switches[0].from[0] = b'`'),
    ("owner", 4, |c| c.provinces[1].owner = *b"   "),
    ("owner event date", 5, |c| c.provinces[1].events[0].date = 101),
    ("owner event tag", 4, |c| c.provinces[1].events[0].tag[2] = 255),
    ("war event date", 5, |c| c.wars[0].events[4].date = 14451301),
    ("war event kind", 6, |c| c.wars[0].events[4].kind = 5),
    ("war event tag", 4, |c| c.wars[0].events[4].tag[0] = b'@'),
    ("ledger tag", 4, |c| c.ledger[0].tag[1] = b'{'),
    ("ledger year", 9, |c| c.ledger[0].points[1].year = 10_000),
];

fn repeat_tag(campaign: &mut Campaign) {
    campaign.countries[1].tag = campaign.countries[0].tag;
}

/// The start date moves, so that damage to either date of the head leaves the other good.
fn reverse_dates(campaign: &mut Campaign) {
    campaign.start = 14500102;
}

impl Edges {
    /// Every pair of bad fields: the one that stands first decides.
    pub(super) fn first_field_wins(&mut self) {
        for (first, &(name, number, damage)) in FIELDS.iter().enumerate() {
            self.add(number, format!("{name} alone"), changed(damage));
            for (later, _, also) in &FIELDS[first + 1..] {
                let record = changed(|c| {
                    damage(c);
                    also(c);
                });
                self.add(number, format!("{name} before {later}"), record);
            }
        }
    }

    /// 1, 2, 3 come before any field, 7 and 8 after every field.
    pub(super) fn groups_in_order(&mut self) {
        self.add(7, "a tag twice", changed(repeat_tag));
        self.add(8, "dates reversed", changed(reverse_dates));
        let both = changed(|c| {
            repeat_tag(c);
            reverse_dates(c);
        });
        self.add(7, "a tag twice and dates reversed", both.clone());
        self.add(3, "the same, one byte short", both[..both.len() - 1].to_vec());
        self.add(2, "the same, version 2", written(both.clone(), 3, 2, 2));
        self.add(1, "the same, not ATL", written(written(both, 3, 2, 2), 0, 1, 0));
        for (name, number, damage) in FIELDS {
            let record = changed(|c| {
                reverse_dates(c);
                damage(c);
            });
            self.add(number, format!("{name} and dates reversed"), record);
            let record = changed(|c| {
                c.provinces[1].id = 3;
                damage(c);
            });
            self.add(number, format!("{name} and an id above P"), record.clone());
            let long = [&record[..], &[0]].concat();
            self.add(3, format!("{name}, one byte too many"), long.clone());
            self.add(2, format!("{name}, one byte too many, version 0"), written(long, 3, 2, 0));
        }
    }
}
