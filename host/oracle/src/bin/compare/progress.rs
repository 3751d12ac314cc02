//! How far a run is, on standard error: at a terminal as one line that changes, else a line now and then.

use std::io::{stderr, IsTerminal, Write};
use std::time::{Duration, Instant};

/// A terminal's line changes no more often than this.
const AT_TERMINAL: Duration = Duration::from_millis(200);

/// Elsewhere a line is written no more often than this.
const ELSEWHERE: Duration = Duration::from_secs(10);

/// A count that goes up.
pub struct Progress {
    what: &'static str,
    all: u64,
    terminal: bool,
    started: Instant,
    shown: Instant,
}

impl Progress {
    /// Of so many things.
    pub fn of(what: &'static str, all: u64) -> Progress {
        let now = Instant::now();
        Progress { what, all, terminal: stderr().is_terminal(), started: now, shown: now }
    }

    /// So many are done.
    pub fn at(&mut self, done: u64) {
        let pause = if self.terminal { AT_TERMINAL } else { ELSEWHERE };
        if self.shown.elapsed() < pause {
            return;
        }
        self.shown = Instant::now();
        let seconds = self.started.elapsed().as_secs();
        let text = format!("{done} of {} {}, {seconds} s", self.all, self.what);
        let _ = match self.terminal {
            true => write!(stderr(), "\r{text} ").and_then(|()| stderr().flush()),
            false => writeln!(stderr(), "{text}"),
        };
    }
}

impl Drop for Progress {
    /// The line goes, for what is said next.
    fn drop(&mut self) {
        if self.terminal && self.shown > self.started {
            let _ = write!(stderr(), "\r{:60}\r", "");
        }
    }
}
