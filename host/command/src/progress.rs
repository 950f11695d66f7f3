//! A line on the terminal that says how far something is that takes more than a second.

use std::io::{self, IsTerminal, Write};
use std::time::{Duration, Instant};

/// How long nothing is said, and how long a line stands before the next.
const PATIENCE: Duration = Duration::from_secs(1);

pub struct Progress {
    what: &'static str,
    since: Instant,
    said: Option<Instant>,
    terminal: bool,
}

impl Progress {
    /// Starts counting; `what` is said behind the count.
    pub fn new(what: &'static str) -> Self {
        Progress { what, since: Instant::now(), said: None, terminal: io::stderr().is_terminal() }
    }

    /// So many are done, of so many if that is known.
    pub fn done(&mut self, count: usize, all: Option<usize>) {
        let now = Instant::now();
        if !self.terminal || now.duration_since(self.said.unwrap_or(self.since)) < PATIENCE {
            return;
        }
        self.said = Some(now);
        let seconds = now.duration_since(self.since).as_secs();
        let of = all.map_or(String::new(), |all| format!(" of {all}"));
        // A terminal that cannot be written to is no reason to stop.
        let _ = write!(io::stderr(), "\r{count}{of} {}, {seconds} s ", self.what);
    }
}

impl Drop for Progress {
    fn drop(&mut self) {
        if self.said.is_some() {
            let _ = write!(io::stderr(), "\r\x1b[K");
        }
    }
}
