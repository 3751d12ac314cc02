use std::error::Error;
use std::fmt;
use std::str::FromStr;

/// A text or a word that is no day's.
///
/// ```
/// use chronicle::{Eu4Date, NotADate};
///
/// let refused = "1444-02-29".parse::<Eu4Date>().unwrap_err();
/// assert_eq!(refused, NotADate);
/// let told = "no day: it takes 1444-11-11, 1444.11.11 or 14441111, of the years 1 to 9999 without 29 February";
/// assert_eq!(refused.to_string(), told);
/// ```
#[derive(Clone, Copy, Debug, Default, PartialEq, Eq, PartialOrd, Ord, Hash)]
pub struct NotADate;

impl fmt::Display for NotADate {
    fn fmt(&self, f: &mut fmt::Formatter<'_>) -> fmt::Result {
        f.pad(
            "no day: it takes 1444-11-11, 1444.11.11 or 14441111, \
             of the years 1 to 9999 without 29 February",
        )
    }
}

impl Error for NotADate {}

/// Days of each month, January first; there are no leap days.
const DAYS: [u8; 12] = [31, 28, 31, 30, 31, 30, 31, 31, 30, 31, 30, 31];

/// A day of the years 1 to 9999, in a calendar without leap days.
///
/// It is read from `1444-11-11`, `1444.11.11` or `14441111`, and written as the first.
///
/// ```
/// use chronicle::{Eu4Date, NotADate};
///
/// let date: Eu4Date = "1444-11-11".parse()?;
/// assert_eq!((date.year(), date.month(), date.day()), (1444, 11, 11));
/// assert_eq!(["1444.11.11", "14441111"].map(str::parse), [Ok(date), Ok(date)]);
/// assert_eq!((u32::from(date), Eu4Date::try_from(14441111)), (14441111, Ok(date)));
/// assert_eq!(format!("{date:<12}|"), "1444-11-11  |");
/// assert_eq!("1444-02-29".parse::<Eu4Date>(), Err(NotADate));
/// # Ok::<(), NotADate>(())
/// ```
#[derive(Clone, Copy, PartialEq, Eq, PartialOrd, Ord, Hash)]
pub struct Eu4Date(u32);

impl Eu4Date {
    /// The day of a month of a year, if there is one.
    ///
    /// ```
    /// use chronicle::Eu4Date;
    ///
    /// assert_eq!(Eu4Date::new(1444, 2, 28).map(Eu4Date::word), Some(14440228));
    /// assert_eq!(Eu4Date::new(1444, 2, 29), None);
    /// assert_eq!(Eu4Date::new(0, 1, 1), None);
    /// ```
    pub fn new(year: u16, month: u8, day: u8) -> Option<Eu4Date> {
        let days = DAYS.get(usize::from(month).checked_sub(1)?)?;
        let good = (1..=9999).contains(&year) && (1..=*days).contains(&day);
        good.then(|| Eu4Date(u32::from(year) * 10_000 + u32::from(month) * 100 + u32::from(day)))
    }

    /// The day that has this word, if one does.
    ///
    /// ```
    /// use chronicle::Eu4Date;
    ///
    /// assert_eq!(Eu4Date::from_word(14441111), Eu4Date::new(1444, 11, 11));
    /// assert_eq!(Eu4Date::from_word(u32::MAX), None);
    /// ```
    pub fn from_word(word: u32) -> Option<Eu4Date> {
        let year = u16::try_from(word / 10_000).ok()?;
        Eu4Date::new(year, (word / 100 % 100) as u8, (word % 100) as u8)
    }

    /// The day of a word that the library wrote as one.
    pub(crate) fn written(word: u32) -> Eu4Date {
        Eu4Date(word)
    }

    /// Its word in a row: year×10000 + month×100 + day. Words are ordered as days are.
    ///
    /// ```
    /// assert_eq!(chronicle::Eu4Date::new(1444, 11, 11).map(|date| date.word()), Some(14441111));
    /// ```
    pub fn word(self) -> u32 {
        self.0
    }

    /// 1 to 9999.
    ///
    /// ```
    /// assert_eq!(chronicle::Eu4Date::new(1444, 11, 12).map(|date| date.year()), Some(1444));
    /// ```
    pub fn year(self) -> u16 {
        (self.0 / 10_000) as u16
    }

    /// 1 to 12.
    ///
    /// ```
    /// assert_eq!(chronicle::Eu4Date::new(1444, 11, 12).map(|date| date.month()), Some(11));
    /// ```
    pub fn month(self) -> u8 {
        (self.0 / 100 % 100) as u8
    }

    /// 1 to 31.
    ///
    /// ```
    /// assert_eq!(chronicle::Eu4Date::new(1444, 11, 12).map(|date| date.day()), Some(12));
    /// ```
    pub fn day(self) -> u8 {
        (self.0 % 100) as u8
    }

    /// How many days lie between the first of all days and this one.
    ///
    /// ```
    /// use chronicle::Eu4Date;
    ///
    /// let days = |year, month, day| Eu4Date::new(year, month, day).map(Eu4Date::days);
    /// assert_eq!([days(1, 1, 1), days(1, 12, 31), days(3, 3, 1)], [Some(0), Some(364), Some(789)]);
    /// ```
    pub fn days(self) -> u32 {
        let before: u32 = DAYS
            .iter()
            .take(usize::from(self.month()).saturating_sub(1))
            .map(|&d| u32::from(d))
            .sum();
        365 * u32::from(self.year()).saturating_sub(1)
            + before
            + u32::from(self.day()).saturating_sub(1)
    }
}

impl FromStr for Eu4Date {
    type Err = NotADate;

    fn from_str(text: &str) -> Result<Eu4Date, NotADate> {
        let parts: Vec<&str> = text.split(['-', '.']).collect();
        let digits = |part: &&str| part.bytes().all(|byte| byte.is_ascii_digit());
        let found = match parts[..] {
            _ if !parts.iter().all(digits) => None,
            [word] if word.len() <= 8 => word.parse().ok().and_then(Eu4Date::from_word),
            [year, month, day] => match (year.parse(), month.parse(), day.parse()) {
                (Ok(year), Ok(month), Ok(day)) => Eu4Date::new(year, month, day),
                _ => None,
            },
            _ => None,
        };
        found.ok_or(NotADate)
    }
}

impl TryFrom<u32> for Eu4Date {
    type Error = NotADate;

    fn try_from(word: u32) -> Result<Eu4Date, NotADate> {
        Eu4Date::from_word(word).ok_or(NotADate)
    }
}

impl TryFrom<&str> for Eu4Date {
    type Error = NotADate;

    fn try_from(text: &str) -> Result<Eu4Date, NotADate> {
        text.parse()
    }
}

impl From<Eu4Date> for u32 {
    fn from(date: Eu4Date) -> u32 {
        date.0
    }
}

impl fmt::Display for Eu4Date {
    fn fmt(&self, f: &mut fmt::Formatter<'_>) -> fmt::Result {
        f.pad(&format!("{:04}-{:02}-{:02}", self.year(), self.month(), self.day()))
    }
}

impl fmt::Debug for Eu4Date {
    fn fmt(&self, f: &mut fmt::Formatter<'_>) -> fmt::Result {
        write!(f, "Eu4Date({self})")
    }
}
