//! Standard output and error of a run over many files, with a progress bar if standard error is a terminal.

use crate::system::{self, Standard};
use crate::tell;
use std::io::{self, IsTerminal};
use std::time::{Duration, Instant};

/// A run is long, and gets a bar, after this time. The bar is drawn anew at most so often.
const LONG: Duration = Duration::from_millis(700);
const REDRAW: Duration = Duration::from_millis(100);

/// Output that waits to be written.
const PENDING: usize = 1 << 16;

pub struct Screen {
    pending: Vec<u8>,
    total: usize,
    start: Instant,
    drawn: Option<Drawn>,
    terminal: bool,
}

/// The bar on the screen: when it was drawn, and its columns.
struct Drawn {
    at: Instant,
    columns: usize,
}

impl Screen {
    pub fn new(total: usize) -> Self {
        let terminal = Standard::Error.file().is_ok_and(|file| file.is_terminal());
        Screen { pending: Vec::new(), total, start: Instant::now(), drawn: None, terminal }
    }

    /// Standard output, kept until there is enough of it.
    pub fn write(&mut self, bytes: &[u8]) -> io::Result<()> {
        self.pending.extend_from_slice(bytes);
        if self.pending.len() < PENDING {
            return Ok(());
        }
        self.flush()
    }

    /// Standard error, after the output that came before it.
    pub fn warn(&mut self, bytes: &[u8]) -> io::Result<()> {
        if bytes.is_empty() {
            return Ok(());
        }
        self.flush()?;
        tell::write_err(bytes);
        Ok(())
    }

    /// So many inputs are done.
    pub fn progress(&mut self, done: usize) -> io::Result<()> {
        let fresh = self.drawn.as_ref().is_some_and(|drawn| drawn.at.elapsed() < REDRAW);
        if !self.terminal || fresh || self.start.elapsed() < LONG {
            return Ok(());
        }
        self.flush()?;
        let bar = bar(done, self.total, system::columns().unwrap_or(80));
        tell::write_err(format!("\r{bar}").as_bytes());
        self.drawn = Some(Drawn { at: Instant::now(), columns: bar.len() });
        Ok(())
    }

    /// Takes the bar away and writes what waits, so that the two never mix.
    fn flush(&mut self) -> io::Result<()> {
        if let Some(Drawn { columns, .. }) = self.drawn.take() {
            tell::write_err(format!("\r{:columns$}\r", "").as_bytes());
        }
        let written = tell::write_out(&self.pending);
        self.pending.clear();
        written
    }

    pub fn finish(mut self) -> io::Result<()> {
        self.flush()
    }
}

/// The bar, in fewer columns than the terminal has, so that the cursor stays in its line.
fn bar(done: usize, total: usize, columns: usize) -> String {
    const WIDEST: usize = 40;
    let numbers = format!("{done} of {total}");
    let room = columns.saturating_sub(1);
    if numbers.len() > room {
        return String::new();
    }
    let width = room.saturating_sub("[] ".len() + numbers.len()).min(WIDEST);
    if columns < 20 || width == 0 {
        return numbers;
    }
    let filled = (width * done).checked_div(total).unwrap_or(0).min(width);
    format!("[{}{}] {numbers}", "#".repeat(filled), ".".repeat(width - filled))
}

#[cfg(test)]
mod tests {
    use super::*;

    #[test]
    fn bars_fit() {
        assert_eq!(bar(1, 4, 100), format!("[{}{}] 1 of 4", "#".repeat(10), ".".repeat(30)));
        assert_eq!(bar(4, 4, 50), format!("[{}] 4 of 4", "#".repeat(40)));
        assert_eq!(bar(1, 2, 30), "[##########..........] 1 of 2");
        assert_eq!(bar(1, 2, 20), "[#####.....] 1 of 2");
        assert_eq!(bar(1, 2, 19), "1 of 2");
        assert_eq!(bar(1, 2, 7), "1 of 2");
        assert_eq!(bar(1, 2, 6), "");
        assert_eq!(bar(1_000_000, 2_000_000, 24), "[#.] 1000000 of 2000000");
        assert_eq!(bar(1_000_000, 2_000_000, 21), "1000000 of 2000000");
        assert_eq!(bar(0, 0, 1), "");
    }
}
