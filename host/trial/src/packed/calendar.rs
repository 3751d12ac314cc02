//! The calendar (Rules 1.3): years 1 to 9999, no leap days.

use crate::pack::Date;

/// Days of each month, January first.
pub const DAYS: [u32; 12] = [31, 28, 31, 30, 31, 30, 31, 31, 30, 31, 30, 31];

/// The first and the last day there is.
pub const ENDS: [Date; 2] = [10101, 99991231];

/// The day after a good date, if there is one.
///
/// ```
/// use chronicle_trial::calendar::day_after;
///
/// assert_eq!(day_after(14440228), Some(14440301));
/// assert_eq!(day_after(99991231), None);
/// ```
pub fn day_after(date: Date) -> Option<Date> {
    let (year, month, day) = parts(date);
    if date == ENDS[1] {
        None
    } else if day < DAYS[month as usize - 1] {
        Some(date + 1)
    } else if month < 12 {
        Some(year * 10_000 + (month + 1) * 100 + 1)
    } else {
        Some((year + 1) * 10_000 + 101)
    }
}

/// The day before a good date, if there is one.
///
/// ```
/// use chronicle_trial::calendar::day_before;
///
/// assert_eq!(day_before(14440301), Some(14440228));
/// assert_eq!(day_before(10101), None);
/// ```
pub fn day_before(date: Date) -> Option<Date> {
    let (year, month, day) = parts(date);
    if date == ENDS[0] {
        None
    } else if day > 1 {
        Some(date - 1)
    } else if month > 1 {
        Some(year * 10_000 + (month - 1) * 100 + DAYS[month as usize - 2])
    } else {
        Some((year - 1) * 10_000 + 1231)
    }
}

fn parts(date: Date) -> (u32, u32, u32) {
    (date / 10_000, date / 100 % 100, date % 100)
}

#[cfg(test)]
mod tests {
    use super::*;

    #[test]
    fn one_step_forth_and_back() {
        let mut date = 14431228;
        for _ in 0..800 {
            let next = day_after(date).unwrap();
            assert!(next > date);
            assert_eq!(day_before(next), Some(date));
            date = next;
        }
        assert_eq!(date, 14460308);
    }
}
