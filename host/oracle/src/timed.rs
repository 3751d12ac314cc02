//! Two ways to one answer, timed by turns in one process, so that both meet the same machine.

use std::time::{Duration, Instant};

mod c {
    /// As C has it on 64-bit Linux.
    #[repr(C)]
    pub struct Timespec {
        pub seconds: i64,
        pub nanoseconds: i64,
    }

    /// The clock that runs while the calling thread does.
    pub const THREAD: i32 = 3;

    extern "C" {
        pub fn clock_gettime(clock: i32, time: *mut Timespec) -> i32;
    }
}

/// Processor time that the calling thread has had: what runs beside it does not count.
///
/// # Panics
///
/// If the system has no such clock.
///
/// ```
/// use chronicle_oracle::timed::spent;
///
/// let before = spent();
/// assert!(spent() >= before);
/// ```
pub fn spent() -> Duration {
    let mut time = c::Timespec { seconds: 0, nanoseconds: 0 };
    // SAFETY: the function writes the one structure that it is lent.
    let outcome = unsafe { c::clock_gettime(c::THREAD, &mut time) };
    assert_eq!(outcome, 0, "a thread has a clock of its own");
    Duration::new(time.seconds as u64, time.nanoseconds as u32)
}

/// No case takes much longer than this, however slow one call is.
const AT_MOST: Duration = Duration::from_secs(4);

/// Milliseconds for one call, over all rounds.
#[derive(Clone, Copy, Debug)]
#[allow(missing_docs)]
pub struct Times {
    pub best: f64,
    pub median: f64,
}

impl Times {
    /// None without a round.
    ///
    /// ```
    /// use chronicle_oracle::timed::Times;
    /// use std::time::Duration;
    ///
    /// let times = Times::of([3, 1, 2].map(Duration::from_millis).to_vec()).unwrap();
    /// assert_eq!((times.best, times.median), (1.0, 2.0));
    /// assert!(Times::of(vec![]).is_none());
    /// ```
    pub fn of(mut rounds: Vec<Duration>) -> Option<Times> {
        rounds.sort();
        let at = |place: usize| rounds.get(place).map(|time| time.as_secs_f64() * 1e3);
        Some(Times { best: at(0)?, median: at(rounds.len() / 2)? })
    }
}

/// How a race prints its columns; the place of the counts is the caller's to name.
///
/// ```
/// assert!(chronicle_oracle::timed::heading("entries").contains("entries"));
/// ```
pub fn heading(counted: &str) -> String {
    format!(
        "{:<44} {counted:>9} | Rust ms: best   median | ours ms: best   median  ns each | ratio: best median",
        "case"
    )
}

/// Times both by turns, at most so many rounds, and gives a line of the table that [`heading`]
/// begins. Each is told the number of the round and gives its own time. Without the Rust, ours
/// stands alone, and the line says so.
///
/// ```
/// use chronicle_oracle::timed::race;
/// use std::time::Duration;
///
/// let millis = |_: usize| Duration::from_millis(2);
/// assert!(race("case", 1, 3, Some(millis), millis).contains("1.00"));
/// assert!(race("case", 1, 3, None::<fn(usize) -> Duration>, millis).contains("ours alone"));
/// ```
pub fn race(
    name: &str,
    count: usize,
    rounds: usize,
    mut theirs: Option<impl FnMut(usize) -> Duration>,
    mut ours: impl FnMut(usize) -> Duration,
) -> String {
    let [mut their_times, mut our_times] = [Vec::new(), Vec::new()];
    let before = Instant::now();
    while our_times.len() < rounds.max(1) && (our_times.is_empty() || before.elapsed() < AT_MOST) {
        let round = our_times.len();
        their_times.extend(theirs.as_mut().map(|theirs| theirs(round)));
        our_times.push(ours(round));
    }
    line(name, count, Times::of(their_times), Times::of(our_times))
}

fn line(name: &str, count: usize, theirs: Option<Times>, ours: Option<Times>) -> String {
    let cell = |times: Option<Times>| match times {
        Some(Times { best, median }) => format!("{best:>13.3} {median:>8.3}"),
        None => format!("{:>13} {:>8}", "-", "-"),
    };
    let each = ours.map_or(0.0, |ours| ours.best * 1e6 / count.max(1) as f64);
    let ratio = match (theirs, ours) {
        (Some(theirs), Some(ours)) => {
            format!("{:>11.3} {:>6.3}", ours.best / theirs.best, ours.median / theirs.median)
        }
        _ => " ours alone".to_string(),
    };
    format!("{name:<44} {count:>9} | {} | {} {each:>8.1} | {ratio}", cell(theirs), cell(ours))
}
