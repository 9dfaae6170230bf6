//! What a person sees at a terminal: colour, and a line of progress.
use std::ffi::{c_int, c_ulong};
use std::io::{self, IsTerminal, Write};
use std::time::{Duration, Instant};

/// Colours, where standard output is a terminal that has them and NO_COLOR is not set.
#[derive(Clone, Copy)]
pub struct Paint {
    on: bool,
}

impl Paint {
    pub fn for_output() -> Paint {
        let unwanted = std::env::var_os("NO_COLOR").is_some_and(|v| !v.is_empty());
        let dumb = std::env::var_os("TERM").is_none_or(|t| t == "dumb");
        Paint {
            on: io::stdout().is_terminal() && !unwanted && !dumb,
        }
    }

    pub fn bold(self, text: &str) -> String {
        self.painted("1", text)
    }

    pub fn faint(self, text: &str) -> String {
        self.painted("2", text)
    }

    pub fn good(self, text: &str) -> String {
        self.painted("32", text)
    }

    pub fn bad(self, text: &str) -> String {
        self.painted("31", text)
    }

    fn painted(self, code: &str, text: &str) -> String {
        if self.on {
            format!("\x1b[{code}m{text}\x1b[0m")
        } else {
            text.to_string()
        }
    }
}

/// A text filled up with spaces to a width; colours take none.
pub fn padded(text: &str, width: usize) -> String {
    let (mut seen, mut within) = (0, false);
    for c in text.chars() {
        within |= c == '\x1b';
        seen += usize::from(!within);
        within &= c != 'm';
    }
    format!("{text}{}", " ".repeat(width.saturating_sub(seen)))
}

/// How many signs a line has room for: what COLUMNS says, else the terminal, else 80.
pub fn width() -> usize {
    let said = std::env::var("COLUMNS").ok().and_then(|columns| columns.parse().ok());
    said.or_else(columns).unwrap_or(80)
}

/// The columns of the terminal that standard output is.
fn columns() -> Option<usize> {
    #[repr(C)]
    #[derive(Default)]
    struct Size {
        rows: u16,
        columns: u16,
        pixels: [u16; 2],
    }
    const GET_SIZE: c_ulong = 0x5413;
    extern "C" {
        fn ioctl(file: c_int, request: c_ulong, ...) -> c_int;
    }
    let mut size = Size::default();
    // SAFETY: for this request Linux writes these eight bytes, and no others.
    let told = io::stdout().is_terminal() && unsafe { ioctl(1, GET_SIZE, &mut size) } == 0;
    (told && size.columns > 0).then_some(size.columns.into())
}

/// So many lines of a list are told to a person; JSON has them all.
const TOLD: usize = 20;

/// The first lines of a list, and how many more there are.
pub fn shortened(mut lines: Vec<String>) -> Vec<String> {
    let more = lines.len().saturating_sub(TOLD);
    lines.truncate(TOLD);
    if more > 0 {
        lines.push(format!("and {more} more; --json tells them all"));
    }
    lines
}

/// A line on standard error that says how far a walk has come: where standard error is a terminal, and the walk takes
/// long enough for somebody to wonder.
pub struct Progress<W: Write> {
    to: Option<W>,
    blocks: usize,
    shown: bool,
    next: Instant,
}

const PATIENCE: Duration = Duration::from_millis(300);
const BETWEEN: Duration = Duration::from_millis(100);

impl Progress<io::Stderr> {
    /// Of a walk over so many blocks.
    pub fn over(blocks: usize) -> Progress<io::Stderr> {
        let err = io::stderr();
        let seen = err.is_terminal();
        Progress::new(seen.then_some(err), blocks, Instant::now() + PATIENCE)
    }
}

impl<W: Write> Progress<W> {
    fn new(to: Option<W>, blocks: usize, next: Instant) -> Progress<W> {
        Progress {
            to,
            blocks,
            shown: false,
            next,
        }
    }

    /// The walk goes on at this block, or is past the last.
    pub fn at(&mut self, block: u32) {
        let Some(to) = &mut self.to else { return };
        if Instant::now() < self.next {
            return;
        }
        self.shown = true;
        self.next = Instant::now() + BETWEEN;
        let block = self.blocks.min(block as usize);
        let share = 100 * block / self.blocks;
        let _ = write!(to, "\rblock {block} of {}, {share} %", self.blocks).and_then(|()| to.flush());
    }
}

impl<W: Write> Drop for Progress<W> {
    fn drop(&mut self) {
        if let (true, Some(to)) = (self.shown, &mut self.to) {
            let _ = write!(to, "\r\x1b[K").and_then(|()| to.flush());
        }
    }
}

#[cfg(test)]
mod tests {
    use super::*;

    #[test]
    fn a_line_in_time_and_wiped() {
        let mut seen = Vec::new();
        let mut progress = Progress::new(Some(&mut seen), 4096, Instant::now());
        progress.at(64);
        progress.at(128);
        progress.next = Instant::now();
        progress.at(65535);
        drop(progress);
        assert_eq!(
            String::from_utf8_lossy(&seen),
            "\rblock 64 of 4096, 1 %\rblock 4096 of 4096, 100 %\r\x1b[K"
        );
    }

    #[test]
    fn nothing_on_a_short_walk() {
        let mut seen = Vec::new();
        let mut progress = Progress::new(Some(&mut seen), 4096, Instant::now() + PATIENCE);
        progress.at(64);
        drop(progress);
        assert_eq!(seen, b"");
    }
}
