//! How far a long command is, on standard error.

use std::io::{IsTerminal, Write};
use std::time::{Duration, Instant};

pub(crate) struct Progress {
    start: Instant,
    next: Duration,
    terminal: bool,
    shown: bool,
}

impl Progress {
    pub(crate) fn new() -> Progress {
        Progress {
            start: Instant::now(),
            next: Duration::from_secs(2),
            terminal: std::io::stderr().is_terminal(),
            shown: false,
        }
    }

    /// After two seconds, and from time to time from then on: the words for the seconds gone by.
    pub(crate) fn tell(&mut self, words: impl FnOnce(f64) -> String) {
        let elapsed = self.start.elapsed();
        if elapsed < self.next || super::is_silent() {
            return;
        }
        let (begin, end, wait) = if self.terminal {
            ("\r\x1b[K", "", 1)
        } else {
            ("", "\n", 10)
        };
        let words = words(elapsed.as_secs_f64());
        let mut stderr = std::io::stderr().lock();
        let _ = write!(stderr, "{begin}{words}{end}").and_then(|()| stderr.flush());
        self.next = elapsed + Duration::from_secs(wait);
        self.shown = true;
    }

    /// The same for a count of equal steps.
    pub(crate) fn steps(&mut self, what: &str, made: usize, all: usize) {
        self.tell(|time| {
            let about = time * all as f64 / made.max(1) as f64;
            format!(
                "{what} {made} of {all}: {} of about {}",
                seconds(time),
                seconds(about)
            )
        });
    }
}

impl Drop for Progress {
    fn drop(&mut self) {
        if self.shown && self.terminal {
            let _ = writeln!(std::io::stderr());
        }
    }
}

/// A time in words.
pub(crate) fn seconds(time: f64) -> String {
    match time {
        time if time < 100.0 => format!("{time:.0} s"),
        time if time < 6000.0 => format!("{:.0} min", time / 60.0),
        time => format!("{:.1} h", time / 3600.0),
    }
}
