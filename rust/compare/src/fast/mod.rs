//! A second version of the hot path, written for speed, that the benchmark divides by: 32-bit coefficients, a mask of the nonzero
//! polynomials of each row, lines that the run leaves as they are copied from text to text, eight digits read or written at once, one
//! work area for all sheets: the leading side, for batches. `calls` has the calls on stores, of both sides.

pub mod calls;
mod elimination;
mod frames;
mod reader;
mod roots;
mod writer;

pub use elimination::{largest_root, run, Report};
pub use frames::{batch, stream};
pub use reader::read;
pub use roots::{roots, Roots};
pub use writer::write;

pub const C: i64 = 268_435_455;
pub const ENTRIES: usize = 20;
pub const OUTPUT: usize = 65_536;
const EQUATIONS: usize = 6;
const RELATIONS: usize = 16;

/// Where a row has its right side, behind the entries.
const SIDE: usize = ENTRIES;
/// The bits of a row's left part.
const LEFT: u32 = (1 << ENTRIES) - 1;

/// A part of the sheet that is worked on.
#[derive(Clone, Copy)]
struct Text {
    start: usize,
    end: usize,
}

impl Text {
    const NONE: Text = Text { start: 0, end: 0 };

    fn of(self, sheet: &[u8]) -> &[u8] {
        &sheet[self.start..self.end]
    }
}

/// The entries, block l first, four columns a block, and the right side.
#[derive(Clone, Copy)]
struct Row {
    /// Bit e is set where polynomial e is not zero.
    mask: u32,
    /// Whether the row is no longer what its text says.
    changed: bool,
    /// The line of its left part.
    line: Text,
    /// The line of its right side.
    side: Text,
    /// How many coefficients each polynomial has, 0 for zero.
    lengths: [u8; SIDE + 1],
    /// Coefficients from power 0, with zeros behind the last; anything for the zero polynomial.
    numbers: [[i32; 16]; SIDE + 1],
}

impl Row {
    const ZERO: Row = Row {
        mask: 0,
        changed: false,
        line: Text::NONE,
        side: Text::NONE,
        lengths: [0; SIDE + 1],
        numbers: [[0; 16]; SIDE + 1],
    };

    fn has(&self, e: usize) -> bool {
        self.mask >> e & 1 != 0
    }

    /// How many blocks there are down to the lowest that is not zero.
    fn width(&self) -> u32 {
        (35 - (self.mask & LEFT).leading_zeros()) / 4
    }

    fn coefficients(&self, e: usize) -> &[i32] {
        &self.numbers[e][..self.lengths[e] as usize]
    }

    /// Takes another row's polynomials; of one that its text still tells, the text alone where that is enough.
    fn copy_of(&mut self, other: &Row, text_is_enough: bool) {
        (self.mask, self.changed) = (other.mask, other.changed);
        (self.line, self.side) = (other.line, other.side);
        if other.changed || !text_is_enough {
            self.lengths = other.lengths;
            each(other.mask, |e| self.numbers[e] = other.numbers[e]);
        }
    }
}

/// Every bit of a mask, from the lowest on.
#[inline(always)]
fn each(mut mask: u32, mut take: impl FnMut(usize)) {
    while mask != 0 {
        take(mask.trailing_zeros() as usize);
        mask &= mask - 1;
    }
}

#[derive(Clone, Copy)]
struct Relation {
    n0: i32,
    /// Which of the kept rows it has.
    row: usize,
}

/// The relations of a sheet that are looked at and not taken into the work area.
#[derive(Clone, Copy)]
struct Given {
    count: usize,
    lines: Text,
    sides: Text,
    /// Whether some right side of them is not zero.
    with_side: bool,
}

impl Given {
    const NONE: Given = Given { count: 0, lines: Text::NONE, sides: Text::NONE, with_side: false };
}

/// The work area: a system and its column order. Nothing in it is cleared between two sheets.
pub struct System {
    m: usize,
    equations: usize,
    l: i32,
    /// D + 1
    blocks: usize,
    /// Where the rows are, in their order; the last is the place that a combination is made in.
    places: [usize; EQUATIONS + 1],
    rows: [Row; EQUATIONS + 1],
    /// Relations that stand in the sheet's text alone, in front of the others.
    given: Given,
    relations: [Relation; RELATIONS],
    /// How many relations there are behind those that are given.
    count: usize,
    kept: [Row; RELATIONS],
    /// How many rows are kept.
    kept_count: usize,
    /// Columns from 1, then 0.
    order: [u8; 4],
    /// The sheet's text before and behind its order.
    body: Text,
    fifth: Text,
    /// Whether the run has left something other than the sheet had, beside the order.
    changed: bool,
}

impl System {
    pub fn new() -> Box<System> {
        Box::new(System {
            m: 0,
            equations: 0,
            l: 0,
            blocks: 0,
            places: [0, 1, 2, 3, 4, 5, 6],
            rows: [Row::ZERO; EQUATIONS + 1],
            given: Given::NONE,
            relations: [Relation { n0: 0, row: 0 }; RELATIONS],
            count: 0,
            kept: [Row::ZERO; RELATIONS],
            kept_count: 0,
            order: [0; 4],
            body: Text::NONE,
            fifth: Text::NONE,
            changed: false,
        })
    }

    fn row(&self, i: usize) -> &Row {
        &self.rows[self.places[i]]
    }

    fn row_mut(&mut self, i: usize) -> &mut Row {
        &mut self.rows[self.places[i]]
    }

    /// The relations that are not given, with their rows.
    fn listed(&self) -> impl Iterator<Item = (&Relation, &Row)> {
        self.relations[..self.count].iter().map(|relation| (relation, &self.kept[relation.row]))
    }
}

#[cfg(test)]
mod tests;
