//! Two ways to an answer, by turns.

use std::hint::black_box;
use std::time::{Duration, Instant};

use chronicle_oracle::timed::spent;

mod c {
    /// Free memory at the end of the heap that is given back, and an allocation that is mapped by itself, as
    /// glibc numbers what can be set.
    pub const TRIM_AND_MAP: [i32; 2] = [-1, -3];

    extern "C" {
        #[cfg(target_env = "gnu")]
        pub fn mallopt(parameter: i32, value: i32) -> i32;
    }
}

/// What is freed is kept: else the Rust's time hangs on whether the pages of its answer are fetched from the
/// system anew.
pub fn keep_what_is_freed() {
    #[cfg(target_env = "gnu")]
    for parameter in c::TRIM_AND_MAP {
        // SAFETY: the function changes two thresholds of the allocator, before any other thread runs.
        unsafe { c::mallopt(parameter, 1 << 30) };
    }
}

/// A round lasts at least this long: shorter calls are made several times in one.
const ROUND: Duration = Duration::from_micros(300);

/// No pair takes much longer than this.
const AT_MOST: Duration = Duration::from_secs(5);

/// More calls than this are not made in one round: what they answer is kept until its end.
const MOST_CALLS: usize = 1_000;

/// The best of all rounds, in microseconds.
pub struct Best {
    theirs: f64,
    ours: f64,
}

impl Best {
    /// As a cell of the table.
    pub fn told(&self) -> String {
        let Best { theirs, ours } = self;
        format!("{} / {}: {}", figures(*theirs), figures(*ours), ratio(ours / theirs))
    }
}

/// In bold, with two places behind the point as long as these say something.
fn ratio(ratio: f64) -> String {
    if ratio < 9.995 {
        return format!("**{ratio:.2}**");
    }
    format!("**{}**", figures(ratio))
}

/// Three figures or more, with the thousands apart.
fn figures(number: f64) -> String {
    if number < 99.95 {
        let places = if number < 0.995 {
            3
        } else if number < 9.995 {
            2
        } else {
            1
        };
        return format!("{number:.places$}");
    }
    let digits = format!("{number:.0}");
    let apart = |(place, digit): (usize, char)| {
        let comma = place > 0 && (digits.len() - place) % 3 == 0;
        [comma.then_some(','), Some(digit)].into_iter().flatten()
    };
    digits.chars().enumerate().flat_map(apart).collect()
}

/// Times both by turns.
pub fn race<T, U>(
    rounds: usize,
    mut theirs: impl FnMut() -> T,
    mut ours: impl FnMut() -> U,
) -> Best {
    let calls = [calls(&mut theirs), calls(&mut ours)];
    let mut best = [f64::INFINITY; 2];
    let before = Instant::now();
    for round in 0..rounds.max(1) {
        if round > 0 && before.elapsed() > AT_MOST {
            break;
        }
        best[0] = best[0].min(each(&mut theirs, calls[0]));
        best[1] = best[1].min(each(&mut ours, calls[1]));
    }
    Best { theirs: best[0], ours: best[1] }
}

/// How many calls make a round.
fn calls<T>(call: &mut impl FnMut() -> T) -> usize {
    let once = each(call, 1).max(0.1);
    ((ROUND.as_secs_f64() * 1e6 / once).ceil() as usize).clamp(1, MOST_CALLS)
}

/// Microseconds for one of so many calls; what they answer is dropped behind them.
fn each<T>(call: &mut impl FnMut() -> T, calls: usize) -> f64 {
    let mut answers = Vec::with_capacity(calls);
    let before = spent();
    for _ in 0..calls {
        answers.push(black_box(call()));
    }
    let time = spent() - before;
    time.as_secs_f64() * 1e6 / calls as f64
}
