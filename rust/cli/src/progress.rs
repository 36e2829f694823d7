//! A bar on standard error, where that is a terminal.

use std::{
    io::{self, IsTerminal, Write},
    time::{Duration, Instant},
};

const WIDTH: u64 = 40;
pub const PAUSE: Duration = Duration::from_millis(100);

pub struct Progress {
    total: u64,
    /// Records of the files before this one.
    passed: u64,
    /// When the bar was last drawn; none where nobody would see it.
    last: Option<Instant>,
    /// Whether it stands there.
    shown: bool,
}

impl Progress {
    /// For so many records; 0 where their number isn't known.
    pub fn new(total: u64) -> Progress {
        Progress { total, passed: 0, last: io::stderr().is_terminal().then(Instant::now), shown: false }
    }

    /// So many records of this file are done.
    pub fn at(&mut self, done: u64) {
        if self.last.is_none_or(|last| last.elapsed() < PAUSE) {
            return;
        }
        self.last = Some(Instant::now());
        self.shown = true;
        // A bar that can't be drawn stops nothing.
        let _ = write!(io::stderr(), "\r{}", bar(self.passed + done, self.total));
    }

    /// A file of so many records is done.
    pub fn pass(&mut self, records: u64) {
        self.passed += records;
    }

    /// Clears the line for what is written next.
    pub fn clear(&mut self) {
        if std::mem::take(&mut self.shown) {
            let _ = write!(io::stderr(), "\r\x1b[K");
        }
    }
}

impl Drop for Progress {
    fn drop(&mut self) {
        self.clear();
    }
}

fn bar(done: u64, total: u64) -> String {
    if total == 0 {
        return format!("{done} records");
    }
    let part = |of: u64| (u128::from(done.min(total)) * u128::from(of) / u128::from(total)) as u64;
    let full = "#".repeat(part(WIDTH) as usize);
    format!("[{full:.<width$}] {:3} %  {done} of {total} records", part(100), width = WIDTH as usize)
}

#[cfg(test)]
mod tests {
    use super::bar;

    #[test]
    fn bars() {
        assert_eq!(bar(7, 0), "7 records");
        assert_eq!(bar(0, 2), "[........................................]   0 %  0 of 2 records");
        assert_eq!(bar(1, 2), "[####################....................]  50 %  1 of 2 records");
        assert_eq!(bar(3, 2), "[########################################] 100 %  3 of 2 records");
        assert!(bar(u64::MAX, u64::MAX).contains("100 %"));
    }
}
