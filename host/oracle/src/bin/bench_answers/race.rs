//! Two ways to one answer, timed by turns, by the clock of the thread: what else the machine does is
//! not counted, though it may disturb caches.

use std::time::{Duration, Instant};

pub use chronicle_oracle::timed::spent;
use chronicle_oracle::timed::Times;

/// No case takes much longer than this, however slow one call is.
const AT_MOST: Duration = Duration::from_secs(4);

/// Rows answered, and how long that took.
pub type Timed = (usize, Duration);

/// None where there is nobody to answer.
pub type Answer<'a> = &'a mut dyn FnMut() -> Option<Timed>;

/// Begins a table.
pub fn heading(text: &str) {
    println!("\n{text}");
    println!(
        "{:<32} {:>8} | Rust ms: best   median  ns/row | ours ms: best   median  ns/row | ratio: best median",
        "case", "rows out"
    );
}

/// A line of the table. By turns, so that both meet the same machine; `rows` are those of the
/// record that the time is divided by.
pub fn race(name: &str, rows: usize, rounds: usize, theirs: Answer<'_>, ours: Answer<'_>) {
    let mut times = [Vec::new(), Vec::new()];
    let before = Instant::now();
    let mut answered = None;
    while times.iter().all(|times| times.len() < rounds.max(1)) && before.elapsed() < AT_MOST {
        let given = [theirs(), ours()];
        for ((out, time), times) in
            given.into_iter().zip(&mut times).filter_map(|(g, t)| Some((g?, t)))
        {
            assert_eq!(
                *answered.get_or_insert(out),
                out,
                "both answer as many rows, in every round"
            );
            times.push(time);
        }
    }
    let [theirs, ours] = times.map(Times::of);
    report(name, answered.unwrap_or(0), rows, theirs, ours);
}

fn report(name: &str, answered: usize, rows: usize, theirs: Option<Times>, ours: Option<Times>) {
    let cell = |times: &Option<Times>| match times {
        Some(Times { best, median }) => {
            format!("{best:>13.3} {median:>8.3} {:>7.1}", best * 1e6 / rows as f64)
        }
        None => format!("{:>13} {:>8} {:>7}", "-", "-", "-"),
    };
    let ratio = match (&theirs, &ours) {
        (Some(theirs), Some(ours)) => {
            format!("{:>11.3} {:>6.3}", ours.best / theirs.best, ours.median / theirs.median)
        }
        (None, Some(_)) => "ours alone: too much for the Rust".to_string(),
        (_, None) => "the Rust alone".to_string(),
    };
    println!("{name:<32} {answered:>8} | {} | {} | {ratio}", cell(&theirs), cell(&ours));
}
