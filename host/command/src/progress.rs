//! How long something takes, on standard error, if it takes long and somebody watches.

use std::io::{stderr, IsTerminal, Write};
use std::sync::mpsc::{channel, Receiver, RecvTimeoutError, Sender};
use std::thread::{Builder, JoinHandle};
use std::time::{Duration, Instant};

/// What takes no longer is not told, and so often is what does.
const OFTEN: Duration = Duration::from_secs(1);

/// Something that is being done, until this is dropped.
#[derive(Debug)]
pub struct Progress {
    done: Option<Sender<()>>,
    told: Option<JoinHandle<()>>,
}

impl Progress {
    /// Tells of it where standard error is a terminal.
    pub fn of(what: String) -> Option<Progress> {
        stderr().is_terminal().then(|| Progress::told_to(what, stderr(), OFTEN))
    }

    fn told_to(what: String, to: impl Write + Send + 'static, often: Duration) -> Progress {
        let (done, wait) = channel();
        // Without a thread nothing is told, and all else goes on.
        let told = Builder::new().spawn(move || tell(&what, to, &wait, often)).ok();
        Progress { done: Some(done), told }
    }
}

/// One line that changes, and goes in the end.
fn tell(what: &str, mut to: impl Write, wait: &Receiver<()>, often: Duration) {
    let (began, mut shown) = (Instant::now(), 0);
    while wait.recv_timeout(often) == Err(RecvTimeoutError::Timeout) {
        let line = format!("{what}, {} s", began.elapsed().as_secs());
        shown = line.chars().count();
        let _ = write!(to, "\r{line}").and_then(|()| to.flush());
    }
    if shown > 0 {
        let _ = write!(to, "\r{:shown$}\r", "").and_then(|()| to.flush());
    }
}

impl Drop for Progress {
    fn drop(&mut self) {
        drop(self.done.take());
        if let Some(told) = self.told.take() {
            let _ = told.join();
        }
    }
}

#[cfg(test)]
mod tests {
    use std::io::{self, Write};
    use std::sync::{Arc, Mutex};
    use std::thread::sleep;
    use std::time::Duration;

    use super::Progress;

    #[derive(Clone, Default)]
    struct Shared(Arc<Mutex<Vec<u8>>>);

    impl Write for Shared {
        fn write(&mut self, bytes: &[u8]) -> io::Result<usize> {
            self.0.lock().expect("nobody panicked").write(bytes)
        }
        fn flush(&mut self) -> io::Result<()> {
            Ok(())
        }
    }

    fn told(after: Duration, often: Duration) -> String {
        let to = Shared::default();
        let progress = Progress::told_to("reading".to_string(), to.clone(), often);
        sleep(after);
        drop(progress);
        let bytes = to.0.lock().expect("nobody panicked").clone();
        String::from_utf8(bytes).expect("it is text")
    }

    #[test]
    fn what_takes_long_is_told_and_the_line_goes() {
        let said = told(Duration::from_millis(500), Duration::from_millis(10));
        assert!(
            said.starts_with("\rreading, 0 s") && said.ends_with("\r            \r"),
            "{said:?}"
        );
    }

    #[test]
    fn what_is_quick_is_not() {
        assert_eq!(told(Duration::ZERO, Duration::from_secs(60)), "");
    }
}
