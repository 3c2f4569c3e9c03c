//! How long the work takes: a limit that ends it, and on a terminal how far it has come.

use crate::output::say;
use std::cell::Cell;
use std::io::{self, IsTerminal};
use std::time::{Duration, Instant};

/// Work that takes longer tells how far it has come.
const QUIET: Duration = Duration::from_secs(1);
/// How long a told line stands at least.
const STANDS: Duration = Duration::from_millis(200);

/// The limit is over.
#[derive(Debug)]
pub struct Late;

pub struct Clock {
    begin: Instant,
    limit: Option<Duration>,
    /// When the last line was told, where lines are told.
    told: Option<Cell<Duration>>,
    is_line: Cell<bool>,
}

impl Clock {
    /// Tells where standard error is a terminal.
    pub fn new(limit: Option<Duration>) -> Clock {
        Clock::telling(limit, io::stderr().is_terminal())
    }

    /// Tells nothing.
    pub fn quiet(limit: Option<Duration>) -> Clock {
        Clock::telling(limit, false)
    }

    fn telling(limit: Option<Duration>, is_telling: bool) -> Clock {
        let told = is_telling.then(|| Cell::new(QUIET - STANDS));
        Clock { begin: Instant::now(), limit, told, is_line: Cell::new(false) }
    }

    /// Whether there is time left.
    pub fn look(&self) -> Result<(), Late> {
        match self.limit {
            Some(limit) if self.begin.elapsed() >= limit => Err(Late),
            _ => Ok(()),
        }
    }

    /// Tells how far the work has come, in the place of what was told before.
    pub fn tell(&self, what: impl FnOnce() -> String) {
        let Some(told) = &self.told else { return };
        let now = self.begin.elapsed();
        if now >= told.get() + STANDS {
            told.set(now);
            self.is_line.set(true);
            say(&format!("\r{}\x1b[K", what()));
        }
    }

    /// Takes away what was told.
    pub fn clear(&self) {
        if self.is_line.replace(false) {
            say("\r\x1b[K");
        }
    }
}

impl Drop for Clock {
    fn drop(&mut self) {
        self.clear();
    }
}
