//! The progress line on standard error: written over itself on a terminal, else a line now and then.

use std::io::{self, IsTerminal, Write};
use std::time::{Duration, Instant};

pub struct Progress {
    begun: Instant,
    last: Instant,
    terminal: bool,
}

impl Default for Progress {
    fn default() -> Progress {
        let now = Instant::now();
        Progress { begun: now, last: now, terminal: io::stderr().is_terminal() }
    }
}

impl Progress {
    /// Tells how far it is, where the last telling was long enough ago.
    pub fn tell(&mut self, what: &str) {
        let pause =
            if self.terminal { Duration::from_millis(200) } else { Duration::from_secs(10) };
        if self.last.elapsed() >= pause {
            self.last = Instant::now();
            self.write(what, !self.terminal);
        }
    }

    /// Tells in any case, on a line that stays.
    pub fn say(&mut self, what: &str) {
        self.write(what, true);
    }

    /// Where standard error is gone, nobody is told.
    fn write(&self, what: &str, stays: bool) {
        let start = if self.terminal { "\r\x1b[K" } else { "" };
        let end = if stays { "\n" } else { "" };
        let seconds = self.begun.elapsed().as_secs();
        let _ = write!(io::stderr(), "{start}try: {what} ({seconds} s){end}");
    }
}

impl Drop for Progress {
    fn drop(&mut self) {
        if self.terminal {
            let _ = write!(io::stderr(), "\r\x1b[K");
        }
    }
}
