//! jomini's date: its order is that of numbers (Rules 1.3), its days are counted without leap days.

/// Days before each month's first; there are no leap days.
const DAYS_BEFORE: [u32; 12] = [0, 31, 59, 90, 120, 151, 181, 212, 243, 273, 304, 334];

/// What the games' dates have in common.
pub trait PdsDate {
    /// The year.
    fn year(&self) -> i16;
}

/// A date as a record has it (Rules 1.3), a single number: no date the Rust could have compares
/// quicker.
#[derive(Clone, Copy, Debug, PartialEq, Eq, PartialOrd, Ord, Hash)]
pub struct Date(u32);

impl Date {
    /// The date of these numbers, taken to be good.
    pub fn from_ymd(year: i16, month: u8, day: u8) -> Date {
        Date(year as u32 * 10_000 + u32::from(month) * 100 + u32::from(day))
    }

    /// The date that a record writes as this number, taken to be good.
    pub fn from_number(number: u32) -> Date {
        Date(number)
    }

    /// The number that a record has for this date.
    pub fn number(self) -> u32 {
        self.0
    }

    /// Days from this date to the other, below 0 if that comes first.
    ///
    /// ```
    /// use stand_in_jomini::common::Date;
    ///
    /// let days = |from, to| Date::from_number(from).days_until(&Date::from_number(to));
    /// assert_eq!(days(14440228, 14440301), 1);
    /// assert_eq!(days(14441231, 14450101), 1);
    /// assert_eq!(days(14450101, 14440101), -365);
    /// ```
    pub fn days_until(&self, other: &Date) -> i32 {
        other.day_number() - self.day_number()
    }

    fn day_number(self) -> i32 {
        let (year, month, day) = (self.0 / 10_000, self.0 / 100 % 100, self.0 % 100);
        (365 * year + DAYS_BEFORE[month as usize - 1] + day) as i32
    }
}

impl PdsDate for Date {
    fn year(&self) -> i16 {
        (self.0 / 10_000) as i16
    }
}
