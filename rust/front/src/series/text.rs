//! Values and tables as text, written as they are found.

use super::clock::Clock;
use super::range::{Range, Value};
use crate::command::End;
use std::time::{Duration, Instant};

/// Characters that are held back until their columns can be made equally wide.
const HELD: usize = 32_768;
/// How long they are held back.
const QUIET: Duration = Duration::from_secs(1);

/// A value as text.
pub fn shown(value: &Value, place: (i64, usize), names: &[String]) -> String {
    let named = |(index, column): (i64, usize)| format!("{}({index})", names[column - 1]);
    let Value::Given(number, others) = value else { return named(place) };
    let mut sum = if number.is_zero() && !others.is_empty() { String::new() } else { number.to_string() };
    for (other, factor) in others {
        let size = if factor.is_negative() { factor.clone().negated() } else { factor.clone() };
        sum += match (sum.is_empty(), factor.is_negative()) {
            (true, true) => "-",
            (true, false) => "",
            (false, true) => " - ",
            (false, false) => " + ",
        };
        if !size.is_one() {
            sum += &format!("{size} ");
        }
        sum += &named(*other);
    }
    sum
}

/// The line of a table: an index and its values.
pub fn line(range: &Range, index: i64, names: &[String]) -> Vec<String> {
    let value = |column| shown(&range.value(index, column), (index, column), names);
    std::iter::once(index.to_string()).chain((1..=names.len()).map(value)).collect()
}

/// The first line of a table.
pub fn heading(names: &[String]) -> Vec<String> {
    std::iter::once("n".to_string()).chain(names.iter().cloned()).collect()
}

/// What is free, what is forced and what follows at an index, a line for each value.
pub fn verdicts(range: &Range, index: i64, names: &[String]) -> String {
    let mut text = String::new();
    for (at, name) in names.iter().enumerate() {
        let value = range.value(index, at + 1);
        let told = match &value {
            Value::Free => "is free".into(),
            Value::Given(number, others) if others.is_empty() => format!("is {number}, forced"),
            _ => format!("follows: {}", shown(&value, (index, at + 1), names)),
        };
        text += &format!("{name}({index}) {told}\n");
    }
    text
}

/// Where an answer goes.
pub type Sink<'a> = &'a mut dyn FnMut(&[u8]) -> Result<(), End>;

/// An answer on its way. It is held back so that the columns of a table get the width of their widest cell, but not
/// past so many characters or so much time: then what there is goes out, and each line behind it as it is found.
pub struct Writer<'a> {
    sink: Sink<'a>,
    clock: &'a Clock,
    held: String,
    /// The lines of the table at the end of what is held, and the width of each column so far.
    lines: Vec<Vec<String>>,
    widths: Vec<usize>,
    size: usize,
    since: Instant,
    is_through: bool,
}

impl<'a> Writer<'a> {
    pub fn new(sink: Sink<'a>, clock: &'a Clock) -> Writer<'a> {
        let (held, lines, widths) = Default::default();
        Writer { sink, clock, held, lines, widths, size: 0, since: Instant::now(), is_through: false }
    }

    /// Adds text behind a table.
    pub fn text(&mut self, text: &str) -> Result<(), End> {
        self.end_table();
        self.widths.clear();
        self.held += text;
        self.size += text.len();
        self.pass()
    }

    /// Adds a line to a table.
    pub fn line(&mut self, cells: Vec<String>) -> Result<(), End> {
        self.widths.resize(cells.len().max(self.widths.len()), 0);
        for (width, cell) in self.widths.iter_mut().zip(&cells) {
            *width = (*width).max(cell.len());
            self.size += cell.len() + 2;
        }
        self.lines.push(cells);
        self.pass()
    }

    /// Lets everything out that is held.
    pub fn finish(&mut self) -> Result<(), End> {
        self.end_table();
        self.clock.clear();
        (self.sink)(std::mem::take(&mut self.held).as_bytes())
    }

    fn pass(&mut self) -> Result<(), End> {
        self.is_through |= self.size > HELD || self.since.elapsed() > QUIET;
        match self.is_through {
            true => self.finish(),
            false => Ok(()),
        }
    }

    /// The lines of a table as text. A cell is filled up with spaces, except the last one of its line.
    fn end_table(&mut self) {
        for line in self.lines.drain(..) {
            for (at, cell) in line.iter().enumerate() {
                self.held += cell;
                let gap = if at + 1 < line.len() { self.widths[at] + 2 - cell.len() } else { 0 };
                self.held.extend(std::iter::repeat_n(' ', gap));
            }
            self.held.push('\n');
        }
    }
}
