//! What is asked for.

use std::ffi::OsString;
use std::path::PathBuf;

use chronicle_oracle::rust::Falsified;
use chronicle_trial::extremes;

/// How the command is called.
pub const USAGE: &str = "\
usage: compare [CAMPAIGNS] [SEED] [EXTREMES]   small campaigns (default 200000) by a seed (default 1), a quarter as many
                                               damaged records, and so many campaigns at the limits (default all 11)
       compare PATH..                          records, or folders of records, that end in .atl
options: --falsify ANSWER   makes one of the Rust's answers wrong, so that the run must stop: changes, nations, resolver,
                            bookings, ledger, players, histories, start or page
         --help
";

/// What is to be compared.
#[derive(Debug, PartialEq, Eq)]
pub enum Asked {
    Drawn { campaigns: u64, seed: u64, extremes: usize },
    Records(Vec<PathBuf>),
    Help,
}

/// All that was said.
#[derive(Debug, PartialEq, Eq)]
pub struct Arguments {
    pub asked: Asked,
    pub falsified: Option<Falsified>,
}

impl Arguments {
    /// None if they are no arguments of this command.
    pub fn of(texts: impl Iterator<Item = OsString>) -> Option<Arguments> {
        let (mut rest, mut falsified, mut help) = (Vec::new(), None, false);
        let mut texts = texts;
        while let Some(text) = texts.next() {
            match text.to_str() {
                Some("--help" | "-h") => help = true,
                Some("--falsify") => falsified = Some(Falsified::named(texts.next()?.to_str()?)?),
                Some(option) if option.starts_with("--") => return None,
                _ => rest.push(text),
            }
        }
        let asked = if help { Asked::Help } else { asked(rest)? };
        Some(Arguments { asked, falsified })
    }
}

/// A first argument that is a number is a count of campaigns; a record of such a name is asked for by ./NAME.
fn asked(texts: Vec<OsString>) -> Option<Asked> {
    let number = |text: &OsString| text.to_str().and_then(|text| text.parse::<u64>().ok());
    if texts.first().is_some_and(|first| number(first).is_none()) {
        return Some(Asked::Records(texts.into_iter().map(PathBuf::from).collect()));
    }
    let mut given = [200_000, 1, extremes::ALL.len() as u64];
    if texts.len() > given.len() {
        return None;
    }
    for (place, text) in given.iter_mut().zip(&texts) {
        *place = number(text)?;
    }
    let [campaigns, seed, extremes] = given;
    Some(Asked::Drawn { campaigns, seed, extremes: extremes as usize })
}

#[cfg(test)]
mod tests {
    use super::*;

    fn of(line: &str) -> Option<Arguments> {
        Arguments::of(line.split_whitespace().map(OsString::from))
    }

    #[test]
    fn what_is_asked_for() {
        let drawn = |campaigns, seed, extremes| Asked::Drawn { campaigns, seed, extremes };
        let asked = |line| of(line).map(|arguments| arguments.asked);
        assert_eq!(asked(""), Some(drawn(200_000, 1, 11)));
        assert_eq!(asked("40000 2 4"), Some(drawn(40_000, 2, 4)));
        assert_eq!(asked("1 2 3 4"), None);
        assert_eq!(asked("1 two"), None);
        assert_eq!(asked("a 2"), Some(Asked::Records(["a", "2"].map(PathBuf::from).to_vec())));
        assert_eq!(asked("5 --help"), Some(Asked::Help));
        assert_eq!(of("--falsify ledger 5").unwrap().falsified, Some(Falsified::Ledger));
        assert_eq!(of("--falsify"), None);
        assert_eq!(of("--falsify weather"), None);
        assert_eq!(of("--quick"), None);
    }

    #[test]
    fn every_wrong_answer_is_named_in_the_usage() {
        assert!(Falsified::ALL.iter().all(|(name, _)| USAGE.contains(name)));
    }
}
