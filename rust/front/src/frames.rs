//! The frame of a batch that comes in pieces: the line with the number of sheets, and for each sheet its line and its bytes.
//!
//! No more is held than a piece and what begins a line or a sheet. A line is judged as soon as it has its end or cannot become a line any
//! more (SCOPE 5.23).

use crate::places::{is_separator, Judge};
use std::ops::RangeInclusive;

/// How many sheets a batch has (SCOPE 5.1).
const SHEETS: RangeInclusive<usize> = 0..=1_000;
/// How many bytes a sheet has (SCOPE 5.2).
const BYTES: RangeInclusive<usize> = 0..=32_768;
/// The clients (SCOPE 5.2).
const CLIENTS: RangeInclusive<usize> = 1..=8;

/// What the bytes that have come begin with.
#[derive(Clone, Debug, PartialEq, Eq)]
pub enum Next {
    /// Bytes are missing.
    Waits,
    /// A line is broken or out of its range, or bytes are left over.
    Breaks(Broken),
    /// A sheet, with its line and the line `1` before it: a batch of its own.
    Sheet(Vec<u8>),
}

/// Why a batch is broken, and where: line and column, both from 1.
#[derive(Clone, Debug, PartialEq, Eq)]
pub struct Broken {
    pub line: usize,
    pub column: usize,
    pub reason: String,
}

/// A number of a line, judged.
enum Field {
    Waits,
    Breaks(String),
    /// The number, and the bytes that it takes with its separator.
    Number(usize, usize),
}

/// The bytes of a batch that have come and are not worked yet.
pub struct Frames {
    held: Vec<u8>,
    /// How many of them are worked.
    worked: usize,
    /// The number of sheets, once its line has come.
    count: Option<usize>,
    /// The sheets that have been given out.
    given: usize,
    /// Line and column of the first byte that is not worked.
    line: usize,
    column: usize,
    judge: Judge,
}

/// A number without superfluous zeros, in its range.
fn plain(token: &[u8], range: &RangeInclusive<usize>) -> Option<usize> {
    let is_plain = token.iter().all(u8::is_ascii_digit) && (token.len() == 1 || token.first() != Some(&b'0'));
    let value = std::str::from_utf8(token).ok()?.parse().ok()?;
    (is_plain && range.contains(&value)).then_some(value)
}

impl Frames {
    pub fn new() -> Frames {
        Frames { held: Vec::new(), worked: 0, count: None, given: 0, line: 1, column: 1, judge: Judge::new(false) }
    }

    /// The number of sheets, 0 as long as its line has not come.
    pub fn count(&self) -> usize {
        self.count.unwrap_or(0)
    }

    /// Takes the next piece of the batch.
    pub fn take(&mut self, piece: &[u8]) {
        self.held.drain(..self.worked);
        self.worked = 0;
        self.held.extend(piece);
    }

    /// What comes next; a sheet is given out once.
    pub fn next_part(&mut self) -> Next {
        if self.count.is_none() {
            match self.field(0, b'\n', SHEETS, "the number of sheets") {
                Field::Waits => return Next::Waits,
                Field::Breaks(reason) => return self.breaks(0, reason),
                Field::Number(count, taken) => {
                    self.count = Some(count);
                    self.pass(taken);
                }
            }
        }
        if self.given < self.count() {
            return self.sheet();
        }
        if self.rest().is_empty() {
            return Next::Waits;
        }
        self.breaks(0, "bytes behind the last sheet: right would be nothing".into())
    }

    /// The next sheet, if all of it has come.
    fn sheet(&mut self) -> Next {
        let number = self.given + 1;
        let (client, behind) = match self.field(0, b' ', CLIENTS, &format!("the client of sheet {number}")) {
            Field::Waits => return Next::Waits,
            Field::Breaks(reason) => return self.breaks(0, reason),
            Field::Number(client, taken) => (client, taken),
        };
        let (length, taken) = match self.field(behind, b'\n', BYTES, &format!("the bytes of sheet {number}")) {
            Field::Waits => return Next::Waits,
            Field::Breaks(reason) => return self.breaks(behind, reason),
            Field::Number(length, taken) => (length, behind + taken),
        };
        let Some(sheet) = self.rest().get(taken..taken + length) else { return Next::Waits };
        let alone = [format!("1\n{client} {length}\n").as_bytes(), sheet].concat();
        self.pass(taken + length);
        self.given += 1;
        Next::Sheet(alone)
    }

    /// What is left at the end of the input or of what could be read, as the beginning of a batch of its own: the proved call writes to it
    /// what the batch program writes at that place.
    pub fn left_over(&self) -> Vec<u8> {
        let before = match self.count {
            None => "",
            Some(count) if self.given < count => "1\n",
            Some(_) => "0\n",
        };
        [before.as_bytes(), self.rest()].concat()
    }

    /// Where and why a batch is broken that ends here, if it is.
    pub fn ends_early(&self) -> Option<Broken> {
        let number = self.given + 1;
        let reason = match self.count {
            None => "the batch ends before its number of sheets has come".into(),
            Some(count) if self.given < count => format!("the batch ends in sheet {number} of {count}"),
            Some(_) => return None,
        };
        let (line, column) = self.place(self.rest().len());
        Some(Broken { line, column, reason })
    }

    fn rest(&self) -> &[u8] {
        &self.held[self.worked..]
    }

    /// The number that begins so many bytes behind those that are worked.
    fn field(&mut self, at: usize, separator: u8, range: RangeInclusive<usize>, what: &str) -> Field {
        let bytes = &self.held[self.worked + at..];
        let Some(end) = bytes.iter().position(is_separator) else {
            // The proved reader judges a token without its separator: it could begin a number, or it could not (SCOPE 4.32).
            let waits = self.judge.could_begin(bytes);
            return if waits { Field::Waits } else { Field::Breaks(wrong(bytes, what, &range)) };
        };
        match plain(&bytes[..end], &range) {
            None => Field::Breaks(wrong(&bytes[..end], what, &range)),
            Some(_) if bytes[end] != separator => {
                let right = if separator == b' ' { "a space" } else { "the end of the line" };
                Field::Breaks(format!("`{}` for {what}: right behind it would be {right}", shown(&bytes[..end])))
            }
            Some(value) => Field::Number(value, end + 1),
        }
    }

    /// The place so many bytes behind those that are worked.
    fn place(&self, at: usize) -> (usize, usize) {
        let passed = &self.rest()[..at];
        let lines = passed.iter().filter(|&&byte| byte == b'\n').count();
        match passed.iter().rposition(|&byte| byte == b'\n') {
            Some(last) => (self.line + lines, at - last),
            None => (self.line, self.column + at),
        }
    }

    fn breaks(&self, at: usize, reason: String) -> Next {
        let (line, column) = self.place(at);
        Next::Breaks(Broken { line, column, reason })
    }

    fn pass(&mut self, taken: usize) {
        (self.line, self.column) = self.place(taken);
        self.worked += taken;
    }
}

impl Default for Frames {
    fn default() -> Frames {
        Frames::new()
    }
}

/// The beginning of a token as it can be printed.
fn shown(token: &[u8]) -> String {
    let first = &token[..token.len().min(24)];
    format!("{}{}", first.escape_ascii(), if first.len() < token.len() { ".." } else { "" })
}

fn wrong(token: &[u8], what: &str, range: &RangeInclusive<usize>) -> String {
    let right = format!("right would be a number from {} to {}", range.start(), range.end());
    if token.is_empty() {
        format!("{what} is missing: {right}")
    } else {
        format!("`{}` for {what}: {right}", shown(token))
    }
}
