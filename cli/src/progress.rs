//! How far a log is, in one line of a terminal.
use std::io::{self, Write};
use std::time::{Duration, Instant};
use yirvagul::Progress;

const FIRST: Duration = Duration::from_millis(250);
const BETWEEN: Duration = Duration::from_millis(100);

/// A line that is written over and over, and wiped when this is dropped.
pub struct Bar {
    next: Instant,
    is_shown: bool,
}

impl Bar {
    pub fn new() -> Self {
        Bar {
            next: Instant::now() + FIRST,
            is_shown: false,
        }
    }

    pub fn show(&mut self, progress: Progress) {
        let now = Instant::now();
        if now < self.next {
            return;
        }
        self.next = now + BETWEEN;
        self.is_shown = true;
        let doing = if progress.checking {
            "checking"
        } else {
            "converting"
        };
        let done = progress.records;
        let far = match progress.total {
            Some(total) if total > 0 => format!("{} %", u128::from(done) * 100 / u128::from(total)),
            _ => format!("{done} records"),
        };
        wipe_and_write(&format!("{doing}: {far}"));
    }
}

impl Drop for Bar {
    fn drop(&mut self) {
        if self.is_shown {
            wipe_and_write("");
        }
    }
}

/// To the line's start, to its end wiped.
fn wipe_and_write(text: &str) {
    let _ = write!(io::stderr(), "\r\x1b[K{text}");
}
