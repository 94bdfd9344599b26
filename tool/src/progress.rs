//! The progress bar: on standard error, only where that is a terminal.

use std::io::{self, IsTerminal, Write};
use std::time::{Duration, Instant};

const BETWEEN: Duration = Duration::from_millis(100);
const WIDTH: usize = 30;

pub struct Progress {
    total: usize,
    terminal: bool,
    drawn: Instant,
}

impl Progress {
    /// Shows the bar at its beginning.
    pub fn new(total: usize) -> Self {
        let mut bar = Self {
            total,
            terminal: io::stderr().is_terminal(),
            drawn: Instant::now(),
        };
        bar.draw(0);
        bar
    }

    /// Whether enough time has gone by to draw again.
    pub fn due(&self) -> bool {
        self.drawn.elapsed() >= BETWEEN
    }

    pub fn draw(&mut self, done: usize) {
        self.drawn = Instant::now();
        let full = WIDTH * done / self.total.max(1);
        self.show(&format!(
            "\r[{}{}] {done} of {} pairs",
            "#".repeat(full),
            ".".repeat(WIDTH - full),
            self.total
        ));
    }

    /// Empties the line, so that something else can be written there.
    pub fn wipe(&self) {
        self.show("\r\x1b[K");
    }

    fn show(&self, text: &str) {
        if self.terminal {
            // A bar that cannot be drawn is no reason to stop.
            let _ = io::stderr().write_all(text.as_bytes());
        }
    }
}

impl Drop for Progress {
    fn drop(&mut self) {
        self.wipe();
    }
}
