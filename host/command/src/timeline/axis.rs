//! Days from left to right.

use chronicle::Eu4Date;

/// Years stand at least as far apart.
const APART: f64 = 56.0;

/// The days that are shown, and where.
pub struct Axis {
    pub start: Eu4Date,
    pub end: Eu4Date,
    pub left: f64,
    pub width: f64,
}

impl Axis {
    /// Where the beginning of a day is; days outside stand at the ends.
    pub fn x(&self, day: Eu4Date) -> f64 {
        let day = day.clamp(self.start, self.end).days() - self.start.days();
        self.left + self.width * f64::from(day) / f64::from(self.days())
    }

    fn days(&self) -> u32 {
        (self.end.days() - self.start.days()).max(1)
    }

    /// The number of the day at a place.
    pub fn day(&self, x: f64) -> u32 {
        let share = ((x - self.left) / self.width).clamp(0.0, 1.0);
        self.start.days() + (share * f64::from(self.days())) as u32
    }

    /// The first days of round years, as many as have room, each with its place.
    pub fn years(&self) -> impl Iterator<Item = (f64, u16)> + '_ {
        let most = (self.width / APART).max(1.0);
        let years = f64::from(self.days()) / 365.0;
        let steps = [1, 2, 5, 10, 20, 25, 50, 100, 200, 250, 500, 1_000, 2_000, 5_000];
        let step = steps.into_iter().find(|&step| years / f64::from(step) <= most);
        let step = step.unwrap_or(10_000);
        let shown = (1..=9999_u16).filter(move |year| year % step == 0);
        let first_day = |year| Eu4Date::new(year, 1, 1).map(|day| (day, year));
        let within = |day: &Eu4Date| (self.start..=self.end).contains(day);
        shown
            .filter_map(first_day)
            .filter(move |(day, _)| within(day))
            .map(|(day, year)| (self.x(day), year))
    }
}

#[cfg(test)]
mod tests {
    use chronicle::Eu4Date;

    use super::Axis;

    fn axis(start: u32, end: u32) -> Axis {
        let [start, end] = [start, end].map(|word| Eu4Date::from_word(word).expect("a day"));
        Axis { start, end, left: 100.0, width: 900.0 }
    }

    #[test]
    fn years_are_round_and_have_room() {
        for (start, end) in [(14441111, 14500101), (14441111, 18210101), (10101, 99991231)] {
            let axis = axis(start, end);
            let years: Vec<(f64, u16)> = axis.years().collect();
            assert!((2..=17).contains(&years.len()), "{years:?}");
            assert!(years.windows(2).all(|pair| pair[1].0 - pair[0].0 > 50.0), "{years:?}");
            assert!(years.iter().all(|(x, _)| (100.0..=1000.0).contains(x)), "{years:?}");
        }
    }

    #[test]
    fn a_campaign_of_one_day() {
        let axis = axis(14441111, 14441111);
        assert_eq!((axis.x(axis.start), axis.years().count()), (100.0, 0));
    }
}
